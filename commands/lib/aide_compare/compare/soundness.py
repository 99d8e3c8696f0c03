"""Whether a database is sound, as the proved program says."""
from __future__ import annotations

from aide_compare.base.ending import Fault
from aide_compare.base.escapes import shown, shown_lines
from aide_compare.compare.comparison import ComparisonInput
from aide_compare.compare.unpack import Copy
from aide_compare.compare.work import compare

MAX_BYTES = 1 << 20  # Of the lines: what differs does not matter here.
MAX_ERROR_LINE = 1000


def refuse_unsound(copy: Copy, former: Copy | None = None) -> None:
    """A Fault if the program does not read an unpacked database to its end, or the former one
    beside it. One database is read as both."""
    copies = {"old": former or copy, "new": copy}
    comparison = compare(ComparisonInput("", "", copies=copies, max_report=MAX_BYTES))
    if comparison.fault:
        raise comparison.fault
    if comparison.has_failed:
        side = "old" if comparison.errors.startswith(b"aide: old ") else "new"
        first = shown_lines(comparison.errors).partition("\n")[0][:MAX_ERROR_LINE]
        lines = [first, *comparison.hints]
        if former is None:
            lines = [line.replace("old database", "new database") for line in lines]
        name = shown(comparison.copies[side].name)
        raise Fault(comparison.status, f"refused: {name} is no sound database", *lines)
