"""The table of changes, its failures, what a text lists of it; where paths lead."""
from __future__ import annotations

import fcntl
import os
import sqlite3
from collections import Counter
from unittest import mock

from tests.commands.units.calls import ModuleTest, PlacesTest

from aide_compare.base import rows
from aide_compare.base.directories import closed_after
from aide_compare.base.ending import write_blocks
from aide_compare.base.files import blocks_of, in_memory
from aide_compare.base.paths import key_of_path
from aide_compare.base.words import SEVERITIES
from aide_compare.changes.severity import RANKS
from aide_compare.changes.table import Table, ChangeRow
from aide_compare.changes.weighing import directory_of, group_of_owner, user_number
from aide_compare.compare import outputs
from aide_compare.show.digest import MAIL, digest, in_directory


def change(path: bytes, owner: int = 0, severity: str = "high") -> ChangeRow:
    key = key_of_path(path)
    place = (group_of_owner(owner), SEVERITIES.index(severity) * RANKS, user_number(owner))
    return key, directory_of(key), "changed", *place, "", 0, 0


def table_of(*changes: ChangeRow) -> Table:
    table = Table()
    table.add(changes)
    return table


class TableTest(ModuleTest):
    def test_bounds(self) -> None:
        """Too many bytes, and any other failure are a Fault."""
        few = [change(b"/%d" % number) for number in range(3)]
        with mock.patch.object(rows.Rows.__init__, "__defaults__", (9 * rows.PAGE,)):
            many = [change(b"/%d" % number + b"n" * 999) for number in range(99)]
            self.fails(18, "cannot keep rows in ", table_of, *many)
        table = table_of(*few)
        self.fails(18, "no such column", lambda: list(table.paths("odd")))
        self.fails(18, "no such table", table.do, "delete from odd")
        with mock.patch.object(sqlite3, "connect", side_effect=sqlite3.OperationalError("why")):
            self.fails(18, "name another directory by TMPDIR): why", Table)

    def test_few(self) -> None:
        """Of a directory of a user a mail lists a few changes of severity low, and no later ones
        because he has many."""
        places = [f"{number // 7}/{number % 7}" for number in range(35)]
        changes = [change(f"/home/{place}".encode(), 1000, "low") for place in places]
        parts = digest(table_of(*changes), MAIL._replace(height=40), lambda *_: "")
        listed = [places[place - 1] for part in parts for place in part.places]
        # Behind ten of two directories are the others, as many of each again.
        self.assertEqual(listed, [place for place in places if place[0] == "1" or place[-1] < "5"])

    def test_few_lines(self) -> None:
        """However few lines there are, the changes of each severity and group of owners are
        counted: root's leave one line to those of services and of users."""
        owners = {0: "/etc/%d", 33: "/srv/%d", 1000: "/home/%d"}
        changes = [
            change((path % number).encode(), owner)
            for owner, path in owners.items()
            for number in range(30)
        ]
        parts = list(digest(table_of(*changes), MAIL._replace(height=9), in_directory))
        lines = [(len(part.places), *part.rest) for part in parts]
        rest = [(0, f"and 30 more in {directory}") for directory in ("/srv", "/home")]
        self.assertEqual(lines, [(6, "and 24 more in /etc"), *rest])

    def test_flood(self) -> None:
        """What a user has in ever more directories takes no memory."""
        table = table_of(*(change(b"/home/%d/x" % number, 1000) for number in range(999)))
        counts = [Counter[object](), Counter[object]()]
        with mock.patch("aide_compare.show.digest.Counter", side_effect=counts):
            list(digest(table, MAIL._replace(height=40), lambda *_: ""))
        self.assertLess(max(map(len, counts)), 99)


def put(path: str, text: bytes) -> None:
    with closed_after(in_memory(text)) as descriptor:
        outputs.open_output(path, "it")(blocks_of(descriptor))


class OutputsTest(PlacesTest):
    def test_streams(self) -> None:
        names = {"-": 1, "/dev/stdout": 1, "/dev/stderr": 2, "/dev/fd/7": 7, "x": None}
        for path, want in names.items():
            self.gives(want, outputs.descriptor_of, path)
        reading, writing = os.pipe()
        for descriptor in (reading, writing):
            path = f"/dev/fd/{descriptor}"
            self.fails(18, "has not opened it", put, path, b"x")  # It is this process's own.
            fcntl.fcntl(descriptor, fcntl.F_SETFD, 0)
        self.gives(None, put, f"/dev/fd/{writing}", b"text")
        self.assertEqual(os.read(reading, 9), b"text")
        with mock.patch.object(os, "close", side_effect=OSError(28, "No space left")):
            self.fails(18, "No space left", write_blocks, writing, [b"x"])
        self.fails(18, "has not opened it", put, f"/dev/fd/{reading}", b"x")
        os.close(reading)
        self.fails(18, "cannot write it /dev/fd", put, f"/dev/fd/{writing}", b"x")
        os.close(writing)
        self.fails(18, "has not opened it", put, f"/dev/fd/{writing}", b"x")

    def test_files(self) -> None:
        """A file is made, and no directory for it."""
        self.gives(None, put, self.path("it"), b"text")
        self.assertEqual(self.read("it"), b"text")
        self.assertEqual(os.stat(self.path("it")).st_mode, 0o100600)
        self.fails(18, "No such file", put, self.path("none/it"), b"x")
        self.assertFalse(os.path.exists(self.path("none")))
