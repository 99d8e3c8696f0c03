"""How many lines of the program are kept: whoever is not root cannot push those of root's changes
out."""
from __future__ import annotations

from collections import Counter

from aide_compare.base.processes import Taker
from aide_compare.lines.change import Fields, Standing, change_line, parsed
from aide_compare.lines.reader import COUNTS_OF_END, ENCODE, EndCounts
from aide_compare.lines.rights import ROOT, owner_of_change, rights_of

CHANGE = b'{"kind":'  # Begins the line of a change.
# How many changes have a kind, an account and a number of the list's line.
Others = Counter[tuple[str, str, int]]
NO_OTHERS: Others = Counter()


class LineRoom:
    """Takes the lines of the program. Up to the limit all bytes go to `keep`. After that only lines
    of changes that may be root's do, up to twice the limit, and others are counted."""

    def __init__(self, limit: int, keep: Taker) -> None:
        self.limit = limit
        self.keep = keep
        self.size = 0
        self.others: Others = Counter()
        self.end = b""  # The last line, if that is left to whoever knows what is kept.
        self._begin = b""  # Of a line that is not whole yet.
        self._is_inside = False  # The first bytes of a line are kept already.

    @property
    def is_cut(self) -> bool:
        return self.size > 2 * self.limit

    def take(self, block: bytes) -> None:
        begin = block[: max(self.limit - self.size, 0)]
        if begin:
            self.put(begin)
            self._is_inside = not begin.endswith(b"\n")
            block = block[len(begin) :]
        if self._is_inside and block:
            begin, end, block = block.partition(b"\n")
            self.put(begin + end)
            self._is_inside = not end
        *lines, self._begin = (self._begin + block).split(b"\n")
        for line in lines:
            self._take_line(line + b"\n")

    def put(self, data: bytes) -> None:
        self.keep(data[: max(2 * self.limit - self.size, 0)])
        self.size += len(data)

    def _take_line(self, line: bytes) -> None:
        if not line.startswith(CHANGE):
            self.end = line
            return
        change = change_line(parsed(line), line)
        # It may be root's if its owner is not known. What decides on reports is open though a
        # trusted pair accounts for it.
        owner = owner_of_change(*rights_of(change.fields))
        if owner in (None, ROOT) or change.account is Standing.TRUSTED:
            self.put(line)
        else:
            self.others[(*change.counted, change.left_out)] += 1

    def end_of_kept(self, fields: Fields, end: EndCounts) -> bytes:
        """The last line, with the counts of what is kept."""
        numbers = end._asdict()
        for (kind, account, _), count in self.others.items():
            numbers[kind] -= count
            numbers[COUNTS_OF_END[account]] -= count
        status = EndCounts(**numbers).status
        return ENCODE({**fields, **numbers, "status": status}).encode() + b"\n"
