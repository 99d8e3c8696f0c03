"""What hosts cost the collector: no bomb of a hostile one takes more than 48 MB of memory, and the
others are compared; the memory and the open files of a report, and what is left when it is ended
half way."""
from __future__ import annotations

import gzip
import json
import os
import re
import shutil
import sys

from tests.lib.program_test import slow

from .sandbox import CommandTest, END, NEW, OLD
from .test_fleet import Fleet, hostile
from .test_hosts_report import Hosts, database, four_hosts, line
from .test_sorting import MEASURE

SHELL = ["sh", "-c"]
PAIR = ("good1", "good2")
COMPARED = "7 1 added, 1 removed, 2 changed: 4 open of 4 changes"
# What a process may take, in kB. With its modules the interpreter takes 18 MB of it.
LIMIT = 48 << 10
COLUMNS = 170000


def columns() -> bytes:
    """A database of some 170,000 columns, and an entry that has a field for each."""
    names = b" ".join(b"%x" % number for number in range(COLUMNS))
    fields = b" ".join(b"%d" % (10 + number % 90) for number in range(COLUMNS))
    return b"@@begin_db\n@@db_spec name " + names + b"\n/var/log/a " + fields + b"\n" + END


def changes(count: int) -> bytes:
    lines = (b"/n%07d 36 104755 %d\n" % (number, number) for number in range(count))
    return b"@@begin_db\n@@db_spec name attr perm size\n" + b"".join(lines) + END


def bombs() -> dict[str, bytes]:
    """What a hostile host may send, by a name for each. What is kept of one in memory, or more than
    150 bytes of each change, exceeds the limit."""
    return {
        "zeros": gzip.compress(bytes(80 << 20), 1),
        "members": gzip.compress(b"") * 200000,
        "columns": gzip.compress(columns()),
        "longline": gzip.compress(b"@@begin_db\n" + b"a" * (40 << 20), 1),
        "spaces": gzip.compress(b"@@begin_db\n@@db_spec name" + b" " * (40 << 20) + END, 1),
        "links": hostile(),
        "changes": gzip.compress(changes(200000), 1),
        "comments": gzip.compress(b"# a comment\n" * (3 << 20), 1),
    }


def measured(fleet: Fleet, *words: str) -> tuple[int, str, int]:
    """The status and the output of a comparison, and the most memory of a process of it, in kB."""
    before = [sys.executable, "-IS", "-c", MEASURE]
    done = fleet.call("aide-compare hosts compare", *words, before=before)
    return done.status, done.output_text, int(done.errors.split()[-1])


@slow
class HostsEndsTest(CommandTest):
    def test_many_hosts(self) -> None:
        """300 hosts with 30 long changes each: few open files, and the memory of 30 hosts."""
        hosts = Hosts(self)
        name = b"/" + b"n" * 900
        new = database(*(line(b"%s%02d" % (name, number), name) for number in range(30)))
        hosts.compared({"first": (database(), new)})
        sizes = []
        few = [*SHELL, 'ulimit -n 40; exec "$@"', "sh", sys.executable, "-IS", "-c", MEASURE]
        for count in (30, 300):
            hosts.copies("first", ["h%d-%d" % (count, number) for number in range(count)])
            said = hosts.report("--format=json", before=few)
            self.assertEqual(said.status, 1, said.error_text)
            sizes.append(int(said.error_text.split()[-1]))
            lines = said.output_text.splitlines()
            self.assertEqual(len(lines), 1 + count + 30)
            self.assertEqual(json.loads(lines[-1])["hosts"], count)
        self.assertLess(sizes[1], sizes[0] + 8000)
        self.assertLess(sizes[1], 60000)

    def test_ends(self) -> None:
        """Without room, a reader or a store: a status that is no comparison's."""
        hosts = four_hosts(self)
        few = [*SHELL, 'ulimit -f 0; exec "$@"', "sh"]
        self.assertEqual(hosts.report(before=few).status, 7, "rows that need no file")
        self.set_names("base.rows", MAX_CACHED=1 << 10)
        said = hosts.report(before=few)
        self.assertEqual((said.status, said.output_text, self.leftovers()), (18, "", []), said)
        self.assertIn("cannot keep rows in ", said.error_text)
        run = hosts.start(hosts.words("aide-compare hosts report", self.path("hosts")))
        if run.stdout is not None:
            run.stdout.close()
        run.wait()
        self.assertNotIn(run.returncode, range(8), "nobody reads")
        os.chmod(self.path("store"), 0o777)
        said = hosts.report()
        os.chmod(self.path("store"), 0o755)
        self.assertEqual(said.status, 18, "a store that everybody can write")
        self.assertNotIn("4 differ", said.output_text)
        shutil.rmtree(self.path("store"))
        said = hosts.report()
        self.assertEqual(said.status, 18)
        missing = said.output_text.count(": there is no directory ")
        self.assertEqual(missing, 5, said)
        self.assertFalse(os.path.exists(self.path("store")))


@slow
class HostsMemoryTest(CommandTest):
    def test_bombs(self) -> None:
        """All bombs beside two good hosts, with a file of paths that are left out."""
        fleet, sent = Fleet(self), bombs()
        self.write("without", "/var/log/**\n")
        for name, text in sent.items():
            fleet.put(name, text)
        words = ["--exclude-from", self.path("without"), fleet.list_hosts(*sent, *PAIR)]
        _, output, memory = measured(fleet, *words)
        for host in PAIR:
            self.assertIn(f"{host} {COMPARED}\n", output)
        statuses = dict(re.findall("(?m)^([a-z]+) ([0-9]+) ", output))
        self.assertEqual(statuses.keys(), sent.keys(), output)
        self.assertLessEqual(set(statuses.values()), set("1 3 4 5 7 18 22 24".split()), output)
        self.assertLess(memory, LIMIT)

    def test_limit(self) -> None:
        """A comparison that asks for 100 MB gets none of it: the host was not compared."""
        fleet = Fleet(self)
        fleet.put("greedy", NEW, OLD)
        self.patch("hosts.host_comparison.copy_database", lambda *_, **__: bytes(100 << 20))
        said = fleet.compare_one("greedy")
        self.assertEqual(said.status, 22, said)
        self.assertIn("greedy 22 what it sent needs too much memory\n", said.output_text)
        self.assertIn("\nstatus=22\n", fleet.state("greedy"), ("the state says so", said))
