"""The changes of a host that are not silent, as the store keeps them: lines of aide_lines, within a
limit.

The file is a stream as aide_lines writes it of two databases that have no other changes, and at its
end the standings of all changes are too. Of changes that do not fit the limit the most severe ones
are kept, root's first, and each kind has a share. So nobody but root hides a change of root's
behind a million others, and no flood hides all of a kind.
"""
from __future__ import annotations

import os
from collections import Counter
from collections.abc import Iterator

from aide_compare.base.ending import DeviceFault, write_blocks
from aide_compare.changes.judged import Judged
from aide_compare.changes.table import KEEP, SIZES
from aide_compare.compare.comparison import Comparison, Judgement
from aide_compare.lines.reader import COUNTS_OF_END, Refused, reader_over
from aide_compare.show.digest import rooms_of
from aide_compare.show.json_lines import line_of

SHARES = 16  # Each severity of each group of owners has one of so many shares of the limit.


def kept_lines(judged: Judged, limit: int) -> Iterator[bytes]:
    """Yields the lines that are kept, which have at most about `limit` bytes."""
    table = judged.table
    parts = list(table.ask(SIZES))
    sizes = [size for _, _, size in parts]
    rooms = rooms_of(limit, [min(size, limit // SHARES) for size in sizes], sizes)
    for (level, owners, _), room in zip(parts, rooms):
        table.do(KEEP, level, owners, room)
    yield os.pread(judged.file.fileno(), judged.begin, 0)
    counted: Counter[str] = Counter()
    for place, _ in table.marks("is_listed", order="place"):
        change = judged.line(place)
        counted.update(change.counted)
        yield change.line
    yield end_line(judged, counted)


def end_line(judged: Judged, counted: Counter[str]) -> bytes:
    """The last line, with the counts of the changes that are kept in place of those of all."""
    reader = judged.reader
    kept = reader.counts._replace(**{name: counted[key] for key, name in COUNTS_OF_END.items()})
    fields = {**reader.end, **kept._asdict(), "status": kept.status}
    return line_of({**fields, "standings": judged.counts._asdict()})


def write_kept(target: int, comparison: Comparison, limit: int) -> Judgement:
    """Writes the lines of a comparison to a file, and returns what they mean. There is no line, and
    they are not judged, if they were cut before."""
    lines = comparison.known_lines()
    if lines.is_cut:
        return Judgement(doubts=["the changes are too many to be judged"])
    try:
        judged = Judged(reader_over(lines.fd), lines.others)
    except Refused as refused:
        raise DeviceFault(f"the lines of aide_lines are not understood: {refused}")
    write_blocks(target, kept_lines(judged, limit))
    return Judgement(judged.counts, list(judged.doubts()))
