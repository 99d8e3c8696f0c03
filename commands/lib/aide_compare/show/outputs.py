"""The outputs of a comparison beside what people read first. Each is a row: the option that names
its place, and what makes its bytes of a comparison and its judged changes."""
from __future__ import annotations

from collections.abc import Callable, Iterable
from typing import TYPE_CHECKING, NamedTuple

from aide_compare.base.options import Option

if TYPE_CHECKING:
    from aide_compare.changes.judged import Judged
    from aide_compare.compare.comparison import Comparison

    # The changes are None if nothing differs, or if nobody could judge them.
    Maker = Callable[[Comparison, "Judged | None"], Iterable[bytes]]


class OutputRow(NamedTuple):
    """An output: its option, whose value is the path of a file, or - for standard output."""

    option: Option
    make: Maker


def json_lines(comparison: Comparison, judged: Judged | None) -> Iterable[bytes]:
    from aide_compare.show.json_lines import added_lines

    return added_lines(comparison, judged)


def page_blocks(comparison: Comparison, judged: Judged | None) -> Iterable[bytes]:
    from aide_compare.show.page import page_of

    return page_of(comparison, judged)


JSON = Option(
    "--json",
    "write the changes as JSON, one object a line, to FILE, - for standard output",
    "FILE",
    is_single=True,
)
PAGE = Option(
    "--page",
    "write the changes as a page for a browser to FILE, - for standard output",
    "FILE",
    is_single=True,
)
JSON_ROW = OutputRow(JSON, json_lines)
PAGE_ROW = OutputRow(PAGE, page_blocks)
OUTPUTS = (JSON_ROW, PAGE_ROW)
