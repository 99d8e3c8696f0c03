"""A change that the object of a line says, what says none, and the counts of all changes."""
from __future__ import annotations

from typing import Any

from tests.commands.units.calls import ModuleTest

from aide_compare.lines.change import ODD, Change, Counts, Standing, account_of, change_line
from aide_compare.lines.change import change_of

LINE: dict[str, Any] = {
    "path_hex": "2fff",
    "kind": "changed",
    "type": "File",
    "summary": "f >",
    "old": {"Size": 1, "Inode": "9999999999999999999", "LinkName": "9", "ACL_hex": "ff"},
    "new": {"Size": None},
}
CHANGE = Change(
    path=b"/\xff",
    kind="changed",
    type="File",
    letters="f >",
    old={"Size": 1, "Inode": 9999999999999999999, "LinkName": "9", "ACL": b"\xff"},
    new={"Size": None},
)
LEAST = Change(b"/a", "added", "Entry", "", {}, {})
COUNTS = Counts(100, 20, 3, 6, 1, 2, 3, 0, 1, 2, 7, 5)


class ChangesTest(ModuleTest):
    def test_whole(self) -> None:
        self.gives(CHANGE, change_of, LINE)
        self.gives(LEAST, change_of, {"path": "/a", "kind": "added"})

    def test_standings(self) -> None:
        """Only what a proof gives is silent."""
        rows: list[tuple[dict[str, Any], tuple[Standing | None, int]]] = [
            ({"same_as": "old"}, (Standing.SAME, 0)),
            ({"same_as": "trusted"}, (Standing.TRUSTED, 0)),
            ({"left_out": 3}, (Standing.LEFT_OUT, 3)),
            ({"standing": "same"}, (None, 0)),
            ({}, (None, 0)),
        ]
        for fields, silent in rows:
            self.gives(silent, account_of, fields)

    def test_none(self) -> None:
        rows: list[dict[str, Any]] = [
            {"kind": "moved"},
            {"path_hex": "61"},
            {"type": None},
            {"summary": 3},
            {"left_out": 0},
            {"left_out": True},
            {"left_out": "1"},
            {"left_out": 1, "same_as": "old"},
            {"same_as": "new"},
            {"old": {"Size": [1]}},
            {"new": {"Size": True}},
            {"new": ["Size"]},
            {"old": {"ACL_hex": "0"}},
            {"old": {"Inode": "x"}},
        ]
        for more in rows:
            with self.subTest(more=more), self.assertRaises(ODD):
                change_of(change_line({**LINE, **more}, b"").fields)

    def test_counts(self) -> None:
        self.expect("no change", set(Counts()), {0})
        self.expect("the sums", (COUNTS.silent, COUNTS.to_read, COUNTS.total), (127, 9, 136))
        self.expect("the words", COUNTS.words(), "6 open (1 high), 3 recorded of 136 changes")
        self.expect("left out", COUNTS.left_out_words(), "left out: 7 of 136 changes")
        self.expect("silent ones", Counts(same=1).words(), "1 change, all silent")
        words = "open=6 recorded=3 left_out=7 trusted=20 same=100 high=1 medium=3 low=5"
        found = [f"{word}={number}" for word, number in COUNTS.numbers().items()]
        self.expect("the numbers", found, words.split())
        for counts, changes, fits in (
            (COUNTS, 136, True),
            (COUNTS, 135, False),
            (COUNTS._replace(open=7), 137, False),
            (COUNTS._replace(recorded=2), 135, False),
            (COUNTS._replace(same=-1), 35, False),
            (COUNTS._replace(told_status=0), 136, False),
            (COUNTS._replace(told_status=8), 136, False),
            (Counts(same=1, told_status=1), 1, False),
        ):
            self.gives(fits, counts.fits, changes)
