"""Which tests a change is tried by, the nearest first, and that no further one begins in the end."""
from __future__ import annotations

import os
import sys
import tempfile
import unittest
from unittest import mock

from tests.lib.programs import VARIABLE
from tests.lib.tally import Tally
from tools.gate import quick, unit_tests
from tools.gate.affected import Tests


class AffectedTest(unittest.TestCase):
    def test_nearest(self) -> None:
        """What uses or names a file is nearer than what uses that."""
        tests = Tests()
        table = tests.of("commands/share/severity.conf")
        self.assertEqual(table["tests.commands.units.test_severity"], 0)
        self.assertLess(0, table["tests.commands.test_standings"])
        names = quick.tests_for(["commands/share/severity.conf"], Tally())
        steps = [table.get(name, 1) for name in names]
        self.assertEqual(steps, sorted(steps), "the nearest first")
        self.assertIn(".units.", names[0], "those of single functions before the others")
        self.assertGreater(len(names), 30)
        module = tests.of("commands/lib/aide_compare/compare/history.py")
        self.assertIn("tests.commands.test_history", module)

    def test_planned(self) -> None:
        """The tests of plans run if there is their program, and otherwise all others do."""
        names = ["tests.planned.test_lists", "tests.program.test_lines"]
        self.assertEqual(quick.with_program(names, "/nowhere/aide"), names[1:])
        with mock.patch.object(quick, "beside", return_value=sys.executable):
            self.assertEqual(quick.with_program(names, "/nowhere/aide"), names)

    def test_old_program(self) -> None:
        """A program older than its sources is a failure, but of one that make was given."""
        with tempfile.NamedTemporaryFile() as file, mock.patch.dict(
            os.environ, {VARIABLE: file.name}
        ):
            os.chmod(file.name, 0o755)
            os.utime(file.name, (1, 1))
            for may_be_old, failed in ((False, 1), (True, 0)):
                tally = Tally()
                self.assertEqual(quick.find_program(tally, may_be_old), file.name)
                self.assertEqual(tally.failed, failed)

    def test_time(self) -> None:
        """After some seconds no further module begins, and their number is known."""
        names = ["tests.source.test_layers"] * 3
        with mock.patch.object(unit_tests, "copy_commands"):
            self.assertEqual(unit_tests.run_all(names, Tally(), seconds=-1.0), 3)
            tally = Tally()
            self.assertEqual(unit_tests.run_all(names[:1], tally), 0)
        self.assertGreater(tally.passed, 0)
