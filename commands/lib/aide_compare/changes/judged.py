"""What the lines of a comparison say of its changes, each with its standing and its severity.

Those that are silent are only counted. All others are in a table: what a package's records on this
host have is grouped by the package, and the rest is open.
"""
from __future__ import annotations

import os
import re
from collections import Counter
from collections.abc import Iterator
from functools import cached_property

from aide_compare.base.ending import DeviceFault
from aide_compare.base.escapes import shown
from aide_compare.base.paths import key_of_path
from aide_compare.base.words import SEVERITIES, counted, status_of_counts
from aide_compare.changes.recorded import Dpkg, Matcher, Rpm
from aide_compare.changes.severity import Severity
from aide_compare.changes.table import Marks, Table, ChangeRow
from aide_compare.changes.weighing import Weights, directory_of, is_of_directory
from aide_compare.compare.line_room import NO_OTHERS, Others
from aide_compare.lines.change import Change, ChangeLine, Counts, Standing
from aide_compare.lines.change import change_line, change_of, parsed
from aide_compare.lines.reader import Reader

# The titles above the packages that people hear of first.
TITLES = ("Unsigned packages", "New packages", "Removed packages")
MAX_MEMBERS = 1000
STANDINGS = list(Standing)
SILENT = (Standing.SAME, Standing.TRUSTED, Standing.LEFT_OUT)
# So many changes are parsed once and no more, unless their lines are long.
MAX_KEPT = 100
MAX_LINE = 1 << 11
MAX_MEMBER_NAME = 100
# The files of a package among dpkg's records.
NAMING = rb".*/([A-Za-z0-9][A-Za-z0-9+.-]*)(?::[a-z0-9-]+)?\.(list|md5sums)"


class Judged:
    """The changes of a comparison: a `table` of those that are not silent, the `counts` of all, the
    packages that are `named`, and in `by` whose records group the changes. `reader` has not given
    any line before; its file is read again for the values of a change."""

    def __init__(self, reader: Reader, others: Others = NO_OTHERS) -> None:
        self.reader = reader
        self.file = reader.file
        self.begin = self.file.tell()  # Of the first change.
        self.named: dict[str, list[str]] = {}
        self.by = ""
        self.silent_beyond: Counter[str] = Counter()  # Of which no line was kept.
        # How many changes the lines of the list leave out, by their numbers.
        self.left_out: Counter[int] = Counter()
        # Directories with another number of links, and a directory in each that is left out.
        self.members: dict[bytes, str] = {}
        self._kept: dict[int, ChangeLine] = {}  # The first ones, by their places.
        self._standings = bytearray()  # Of all, by their places among STANDINGS.
        self.table = Table()
        self.table.add(self._values(reader))
        self.changes = reader.counts.changes + sum(others.values())  # How many there are.
        self.only_counted = self._count(others)  # They are not in the table.

    def _count(self, others: Others) -> int:
        """Counts the changes of which no line was kept. Returns how many of these are not
        silent."""
        open_ones = 0
        for (kind, account, left_out), count in others.items():
            if account:
                self.silent_beyond[Standing(account).key] += count
                if left_out:
                    self.left_out[left_out] += count
            else:
                self.table.count(kind, count)
                open_ones += count
        return open_ones

    def doubts(self) -> Iterator[str]:
        """What was not judged."""
        if self.only_counted:
            words = counted(self.only_counted, "change")
            yield f"{words} in which no side is root's are only counted: there are too many"

    def _values(self, reader: Reader) -> Iterator[ChangeRow]:
        """Yields the values of the changes that are not silent, and counts all."""
        severity = Severity()
        weights = Weights()
        line_at = self.begin
        place = 0
        for change in reader.changes():
            size = len(change.line)
            silent = change.silent
            self._standings.append(STANDINGS.index(silent or Standing.OPEN))
            if silent:
                if change.left_out:
                    self.left_out[change.left_out] += 1
                    self._note_member(change)
            else:
                place += 1
                if place <= MAX_KEPT and size <= MAX_LINE:
                    self._kept[place] = change
                results, owners, user, recordable, has_other_links = weights.of(change)
                if has_other_links and len(self.members) < MAX_MEMBERS:
                    self.members[change.path] = ""
                above = directory_of(change.key)
                rank = severity.rank(change.path, results)
                yield change.key, above, change.kind, owners, rank, user, recordable, line_at, size
            line_at += size

    def _note_member(self, change: ChangeLine) -> None:
        """Notes why the directory above has other links, if this is a directory that came or went.
        What is in a directory follows it."""
        above, _, name = change.path.rpartition(b"/")
        is_member = change.kind != "changed" and is_of_directory(change.fields)
        if is_member and self.members.get(above) == "":
            self.members[above] = f"{change.kind} {shown(name, MAX_MEMBER_NAME)} (left out)"

    @cached_property
    def counts(self) -> Counts:
        """The counts of all, which are counted when the changes are grouped."""
        numbers = Counter(self.silent_beyond)
        for silent in SILENT:
            numbers[silent.key] += self._standings.count(STANDINGS.index(silent))
        kinds = set()
        for standing, level, kind, size in self.table.counts():
            numbers[standing] += size
            numbers[f"{standing}_{SEVERITIES[level]}"] += size
            kinds.add(kind)
        status = status_of_counts(("added" in kinds, "removed" in kinds, "changed" in kinds))
        counts = Counts(**numbers, told_status=status)
        if not counts.fits(self.changes):
            raise DeviceFault("the counts of the standings are not those of the changes")
        return counts

    def group_by(self, records: Dpkg | Rpm) -> None:
        """Finds out which changes are as the packages' records of this machine have them."""
        try:
            Matcher(self.table, self.read).match(records)
        except BaseException:
            self.table.forget_records()
            raise
        self.by = records.by

    def lines(self) -> Iterator[tuple[bytes, Marks]]:
        """Yields the lines of all changes in the order of paths, with their marks."""
        others = self.table.marks(order="place")
        self.file.seek(self.begin)
        for line, number in zip(self.file, self._standings):
            standing = STANDINGS[number]
            if standing in SILENT:
                yield line, Marks(standing.value)
            else:
                _, marks = next(others)
                yield line, marks

    def line(self, place: int) -> ChangeLine:
        """The line of the change at a place of the table."""
        change = self._kept.get(place)
        if change is None:
            at, size = self.table.line_at(place)
            line = os.pread(self.file.fileno(), size, at)
            change = change_line(parsed(line), line)
        return change

    def read(self, place: int) -> Change:
        """The change at a place of the table, as its line has it."""
        return change_of(self.line(place).fields)


def named_packages(changes: Table, has_pair: bool) -> dict[str, list[str]]:
    """The packages whose list came, whose list or digests went, and, beside a trusted pair, whose
    digests are not as in it: by their titles, in the order in which people read them."""
    named: dict[str, dict[str, None]] = {title: {} for title in TITLES}
    unsigned, new, removed = named.values()
    for path, kind in changes.paths("directory = ?", key_of_path(b"/var/lib/dpkg/info")):
        if match := re.fullmatch(NAMING, path):
            name = shown(match[1], 100)
            if kind == "removed":
                removed[name] = None
            elif has_pair and match[2] == b"md5sums":
                unsigned[name] = None
            elif kind == "added" and match[2] == b"list":
                new[name] = None
    for name in unsigned:
        new.pop(name, None)
    return {title: list(names) for title, names in named.items() if names}
