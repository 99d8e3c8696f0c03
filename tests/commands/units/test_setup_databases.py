"""Which databases setup writes into the defaults: those that are there, or those that AIDE's
configuration names, by what the program says of it."""
from __future__ import annotations

import os
from unittest import mock

from tests.commands.units.calls import ModuleTest
from tests.lib.programs import find_program, lines_program_of

from aide_compare.base.ending import Fault
from aide_compare.commands import setup_databases, setup_machine, setup_options
from aide_compare.commands.setup_databases import databases_there
from aide_compare.compare import asking

BOTH = "database_in=file:/a\ndatabase_new=file:/c\n"
# What Debian's configuration has beside its databases.
DEBIAN = "@@x_include_setenv PATH /bin\n  @@x_include /etc/aide/aide.conf.d ^[a-z]+$\nx=R\n"
DEFINED = """@@define DIR /d
@@ifdef DIR
database_in = file:@@{DIR}/old
@@endif
"""
NAMED = {
    BOTH: ["/a", "/c"],
    DEBIAN + BOTH + DEBIAN: ["/a", "/c"],
    BOTH.replace("_new", "_out"): ["/a", "/c"],
    BOTH + "database_out=file:/no\n": ["/a", "/c"],
    BOTH.replace("/a", "/@@{HOSTNAME}.db"): ["/www-1.db", "/c"],
    DEFINED + "\tdatabase_new=file:/d/new\t\n": ["/d/old", "/d/new"],
    "# database_in=file:/no\n/etc R\n!/database_in=file:/no\nR2=p\n" + BOTH: ["/a", "/c"],
}
REFUSED = (
    "",
    "database_in=file:/a\n",
    BOTH + "database_in=file:/b\n",
    "database=file:/b\n" + BOTH,
    "database_in=file:/a\ndatabase_out=file:/b\ndatabase_out=file:/c\n",
    "database_in=file:/a b\ndatabase_new=file:/c\n",
    "database_in=file:/a\ndatabase_out=stdout\n",
    "report_level=1\n" + BOTH,
)


class SetupDatabasesTest(ModuleTest):
    def setUp(self) -> None:
        super().setUp()
        program = lines_program_of(find_program())
        paths = setup_machine.Paths(self.root)
        for module, name, value in (
            (asking, "find_installed", lambda name: program),
            (setup_databases, "PATHS", paths),
            (setup_machine, "PATHS", paths),
            (setup_options, "PATHS", paths),
            (os, "uname", lambda: mock.Mock(nodename="w\nww@-1")),
        ):
            patch = mock.patch.object(module, name, value)
            patch.start()
            self.addCleanup(patch.stop)

    def test_named(self) -> None:
        for text, wanted in NAMED.items():
            self.write("etc/aide.conf", text.encode())
            self.expect(text, databases_there(), wanted)

    def test_refused(self) -> None:
        """What names no two databases, or one of them twice, is refused with the line to write."""
        for text in REFUSED:
            self.write("etc/aide.conf", text.encode())
            with self.assertRaises(Fault, msg=text) as refused:
                databases_there()
            fault = refused.exception
            self.assertIn("aide.conf does not name two databases", fault.text)
            self.assertEqual((fault.status, len(fault.more)), (17, 1))
            self.assertTrue(fault.more[0].endswith("/defaults: --databases OLD NEW"), fault.more)

    def test_own_word(self) -> None:
        """What an administrator has written down counts, and AIDE's configuration is not read."""
        self.write("etc/aide.conf", b"@@ifhost x\n")
        self.write("etc/aide-compare/defaults", b"--to a@b\n --databases /o  /n\n")
        self.assertEqual(databases_there(), ["/o", "/n"])
