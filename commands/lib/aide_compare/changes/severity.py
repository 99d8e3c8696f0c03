"""How much a change matters, by what it gives to whom: the table of severities and its tests."""
from __future__ import annotations

import os
import stat
from collections.abc import Callable, Iterator
from functools import lru_cache
from operator import attrgetter
from typing import NamedTuple

from aide_compare.base.database import RUN_BITS, SET_ID
from aide_compare.base.ending import DeviceFault, Fault, Status
from aide_compare.base.escapes import shown
from aide_compare.base.files import lines_of, trusted_text
from aide_compare.base.paths import Pattern, Test, pattern_of
from aide_compare.base.words import SEVERITIES
from aide_compare.lines.rights import ROOT, Rights, Side

ALL_WRITE = 0o002
GROUP_WRITE = 0o020
HERE = os.path.dirname(os.path.abspath(__file__))
# In the repository, and where packaging/install puts it.
SHIPPED = (
    "../../../share/severity.conf",
    "../../../../../share/aide-compare/severity.conf",
)
WHAT = "the table of severities"
# A rank says how much a change matters, and its place among all others: what has a smaller one is
# read first. Each severity has so many: one for each line that a table may have.
RANKS = 10000
OTHER_RANK = SEVERITIES.index("medium") * RANKS
MAX_PATH = 4096  # PATH_MAX of Linux: no path of a file is longer, so no row means a longer one.
MAX_PIECES = 64  # No row looks at more: a host can have paths of 2,000, each a new directory.
# Stands for a program in a directory of which the rights changed.
PROGRAM = Rights("File", 0o755, ROOT, ROOT, None, None, None, None)


def set_id_bits(rights: Rights, mode: int) -> int:
    """The set-ID bits of a mode. On a directory one of them only says whose group new files
    have."""
    if rights.is_directory:
        return 0
    return mode & SET_ID


def may_have_set_id(rights: Rights) -> bool:
    return set_id_bits(rights, rights.most) != 0


def has_other_type(old: Side, new: Side) -> bool:
    return old is not None and new is not None and old.type != new.type


def has_same_rights(old: Side, new: Side) -> bool:
    """Whether both nights have the entry, and nobody can do more or less with it. Flags do not
    count: a directory that grows gets one."""
    return old is not None and old.is_known and old == new


def gains_set_id(old: Side, new: Side) -> bool:
    """Whether a set-ID bit may be there now that may not have been there before."""
    if new is None:
        return False
    before = 0
    if old is not None:
        before = set_id_bits(old, old.least)
    return set_id_bits(new, new.most) & ~before != 0


def gains_capabilities(old: Side, new: Side) -> bool:
    """Whether a file has capabilities now, and not the same ones before."""
    if new is None or not new.has_capabilities:
        return False
    return old is None or old.capability_sets != new.capability_sets


def gains_acl(old: Side, new: Side) -> bool:
    """Whether an access list gives rights beyond the mode now, and was not the same before."""
    if new is None or not new.has_access_list:
        return False
    return old is None or old.acl != new.acl


def may_be_device_of_another(rights: Rights) -> bool:
    """Whether a device may be another user's than root's, who can give himself all rights on it."""
    return (rights.is_device or not rights.type) and rights.user != ROOT


def comes_open(new: Rights) -> bool:
    """Whether everybody may write an entry that was not there. In a sticky directory names belong
    to the owners of the files."""
    is_sticky = new.is_directory and bool(new.least & stat.S_ISVTX)
    return bool(new.most & ALL_WRITE) and not is_sticky


def gains_writers(old: Side, new: Side) -> bool:
    """Whether somebody may write now who could not before: everybody, also the names of others in a
    directory that was sticky, or after root another user or group. The mode of a link means
    nothing.

    What other users than root do with their own files counts only if everybody can write there.
    """
    if new is None or new.is_link:
        return False
    if old is None or has_other_type(old, new):
        return comes_open(new) or may_be_device_of_another(new)
    kept_names = bool(old.most & ~new.least & stat.S_ISVTX) and old.is_directory
    if new.most & ALL_WRITE and (kept_names or not old.least & ALL_WRITE):
        return True
    if old.user not in (None, ROOT):
        return False
    if old.user == ROOT and new.user != ROOT:
        return True
    had_group = bool(old.least & GROUP_WRITE) and old.group == new.group
    return bool(new.most & GROUP_WRITE) and new.group != ROOT and not had_group


def may_be_executable(rights: Rights) -> bool:
    return rights.type in ("File", "") and bool(rights.most & RUN_BITS)


def either(test: Callable[[Rights], bool]) -> Callable[[Side, Side], bool]:
    """Whether this holds on one side."""
    return lambda old, new: any(map(test, filter(None, (old, new))))


def has_type(word: str) -> Callable[[Side, Side], bool]:
    """Whether the entry as it is now, or as it was if it is gone, has this type."""

    def test(old: Side, new: Side) -> bool:
        rights = new or old
        return rights is not None and rights.type == word

    return test


# What each word of a line tests.
TESTS: dict[str, Callable[[Side, Side], bool]] = {
    "any": lambda old, new: True,
    "added": lambda old, new: old is None,
    "removed": lambda old, new: new is None,
    "changed": lambda old, new: old is not None and new is not None,
    "type": has_other_type,
    "same-rights": has_same_rights,
    "set-id": either(may_have_set_id),
    "new-set-id": gains_set_id,
    "capabilities": either(attrgetter("has_capabilities")),
    "new-capabilities": gains_capabilities,
    "new-acl": gains_acl,
    "new-writers": gains_writers,
    "executable": either(may_be_executable),
    "file": has_type("File"),
    "directory": has_type("Directory"),
    "link": has_type("Link"),
}


# What the rights of an entry on both sides mean: the words of the tests that hold.
TestResults = frozenset[str]


def results_of(old: Side, new: Side) -> TestResults:
    """What the rights of an entry on both sides mean."""
    return frozenset(word for word, test in TESTS.items() if test(old, new))


def opens_programs(results: TestResults) -> bool:
    """Whether somebody has other rights on the programs in an entry, a directory."""
    return "same-rights" not in results and results.issuperset(("changed", "directory"))


class Rule(NamedTuple):
    """One pattern of a line: the rank, by the level and the line's place in the table, and the
    tests, which all have to hold."""

    rank: int
    tests: TestResults
    pattern: Pattern


class DirectoryRules:
    """What rows may say of the entries of a directory: each with the places in its pattern where
    the path of the directory is."""

    def __init__(self, rows: list[tuple[Rule, tuple[int, ...]]]) -> None:
        self.rows = rows

    @lru_cache(maxsize=256)
    def below(self, piece: bytes) -> DirectoryRules:
        """The same of a directory in this one."""
        after = ((row, row.pattern.after(places, piece)) for row, places in self.rows)
        rows = [(row, places) for row, places in after if places]
        if rows == self.rows:  # As in most directories that are deep.
            return self
        return DirectoryRules(rows)

    @lru_cache(maxsize=256)
    def tests(self, results: TestResults) -> list[tuple[Test | None, int]]:
        """The tests of the last piece of a path, None for any, by the rows of which the other tests
        hold."""
        return [
            (row.pattern.tests[-2], row.rank)
            for row, places in self.rows
            if row.tests <= results and len(row.pattern.pieces) - 1 in places
        ]


def first_rank(tests: list[tuple[Test | None, int]], name: bytes) -> int:
    """The rank by the first of these tests that holds for a name."""
    for test, rank in tests:
        if test is None or test(name):
            return rank
    return OTHER_RANK


@lru_cache(maxsize=1)
def shipped_table() -> tuple[str, bytes]:
    """The path and the text of the table that came with the commands. A run reads it once."""
    places = (os.path.normpath(os.path.join(HERE, part)) for part in SHIPPED)
    path = next((place for place in places if os.path.isfile(place)), None)
    if path is None:
        raise DeviceFault("severity.conf is missing: install this command again")
    return path, trusted_text(path, WHAT)


class Severity:
    """The table: the first line whose tests hold, and one of whose patterns fits, decides."""

    def __init__(self, table: tuple[str, bytes] | None = None) -> None:
        lines = lines_of(*(table or shipped_table()), WHAT)
        rows = [self._rows(number, *line) for number, line in enumerate(lines)]
        self.top = DirectoryRules(
            [(row, tuple(row.pattern.reached(0))) for each in rows for row in each]
        )

    @staticmethod
    def _rows(number: int, line: bytes, place: str) -> Iterator[Rule]:
        parts = line.split()
        level = parts.pop(0).decode("ascii", "replace")
        if len(parts) < 2 or level not in SEVERITIES:
            text = f"{place}: a line is high, medium or low, then tests, then patterns"
            raise Fault(Status.USAGE, text)
        words = parts[0].decode("ascii", "replace").split(",")
        for word in words:
            if word not in TESTS:
                raise Fault(Status.USAGE, f"{place}: unknown test: {shown(word, 100)}")
        for part in parts[1:]:
            rank = SEVERITIES.index(level) * RANKS + number
            yield Rule(rank, frozenset(words), pattern_of(part, place))

    def rank(self, path: bytes, results: TestResults) -> int:
        """How much a change at this path matters, by what its rights mean.

        Who has other rights on a directory than before has them on the programs in it, so the
        greater of both counts.
        """
        if len(path) > MAX_PATH:
            return OTHER_RANK
        directory, _, name = path.rpartition(b"/")
        rank = first_rank(self._in(directory, results), name)
        if not opens_programs(results):
            return rank
        programs = self._in(path, results_of(PROGRAM, PROGRAM))
        return min(rank, first_rank(programs, b"*"))

    @lru_cache(maxsize=64)
    def _in(self, directory: bytes, results: TestResults) -> list[tuple[Test | None, int]]:
        """What the rows say of the entries of a directory."""
        inside = self.top
        for piece in directory.split(b"/", MAX_PIECES)[1:MAX_PIECES]:
            inside = inside.below(piece)
        return inside.tests(results)
