"""A baseline of which a part is left open: the new database, but of some paths what the old one
says, so that they differ again in the next comparison. Both databases are sound and in path order,
and are read side by side."""
from __future__ import annotations

import os
import shutil
from collections import Counter
from collections.abc import Callable, Iterator, Sequence
from heapq import merge
from itertools import groupby
from typing import NamedTuple

from aide_compare.base.database import Kind, Layout, fields_in
from aide_compare.base.ending import Fault, OSErrorAsFault, Status
from aide_compare.base.escapes import shown
from aide_compare.base.files import BLOCK, nameless, reopened
from aide_compare.base.paths import Pattern, path_of
from aide_compare.compare.unpack import Copy

OLD_SIDE = 0
NEW_SIDE = 1


class SidedEntry(NamedTuple):
    """An entry of one of the two databases. They are ordered by the key, then by the side."""

    key: bytes
    side: int
    line: bytes


def key_of_entry(entry: SidedEntry) -> bytes:
    return entry.key


class EntryReader:
    """A sound database: its entries, and then its `end`. `put` gets all other lines before that."""

    def __init__(self, copy: Copy, put: Callable[[bytes], object] = len) -> None:
        self.put = put
        self.layout = Layout()
        self.end = b""
        self.file = open(reopened(copy.fd, os.O_RDONLY), "rb", BLOCK)

    def fields(self, line: bytes) -> dict[str, bytes]:
        """The fields of an entry by the names of their columns."""
        columns = self.layout.columns
        return {str(name, "latin-1"): field for name, field in zip(columns, fields_in(line))}

    def entries(self, side: int) -> Iterator[SidedEntry]:
        for line in self.file:
            kind = self.layout.kind_of(line)
            if kind is Kind.END:
                self.end = line
                return
            if kind is not Kind.ENTRY:
                self.put(line)
                continue
            key = self.layout.key_of(line)
            if key is not None:
                yield SidedEntry(key, side, line)


def side_by_side(
    former: EntryReader, latter: EntryReader
) -> Iterator[tuple[bytes, dict[int, bytes]]]:
    """Yields each key of two databases with the lines of both sides, as far as they have it."""
    entries = merge(former.entries(OLD_SIDE), latter.entries(NEW_SIDE))
    for key, group in groupby(entries, key_of_entry):
        yield key, {entry.side: entry.line for entry in group}


class Merged(NamedTuple):
    """A database that was merged, how many of the added, removed and changed paths stay open in it,
    and the patterns that keep none of them open."""

    copy: Copy
    counts: Counter[str]
    unused: list[Pattern]


def _kind_of(lines: dict[int, bytes]) -> str:
    """How a path has changed, by the lines of both sides."""
    if OLD_SIDE not in lines:
        return "added"
    if NEW_SIDE not in lines:
        return "removed"
    return "changed"


def keep_open(old: Copy, new: Copy, patterns: Sequence[Pattern]) -> Merged:
    """The new database with the old entries of the paths that patterns keep open. Columns that
    differ are a Fault of status 24."""
    target = nameless()
    counts: Counter[str] = Counter()
    used: set[Pattern] = set()
    with OSErrorAsFault("cannot make a database of which a part is open"):
        with open(os.dup(target), "wb", BLOCK) as file:
            former = EntryReader(old)
            latter = EntryReader(new, file.write)
            for key, lines in side_by_side(former, latter):
                side = NEW_SIDE
                if lines.get(OLD_SIDE) != lines.get(NEW_SIDE):
                    pieces = path_of(key)[1:].split(b"/")
                    matching = [pattern for pattern in patterns if pattern.matches(pieces)]
                    if matching:
                        used.update(matching)
                        counts[_kind_of(lines)] += 1
                        side = OLD_SIDE
                if side in lines:
                    file.write(lines[side])
            if former.layout.columns != latter.layout.columns:
                raise Fault(
                    Status.DATABASE,
                    f"refused: {shown(new.name)} has other columns (@@db_spec) than the baseline,"
                    " so one database cannot contain lines of both",
                    "nothing can be kept open; accept all of it",
                )
            file.write(latter.end)
            shutil.copyfileobj(latter.file, file, BLOCK)
    unused = [pattern for pattern in patterns if pattern not in used]
    return Merged(Copy(target, new.name, new.written), counts, unused)
