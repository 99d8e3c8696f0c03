"""aide-compare page: what differs as a page."""
from __future__ import annotations

from collections.abc import Sequence

from aide_compare.base.parser import Help
from aide_compare.commands.compare import print_comparison
from aide_compare.commands.compare_request import EPILOG, OutputRequest
from aide_compare.show.outputs import PAGE_ROW

HELP = Help(
    name="aide-compare page",
    usage="%(prog)s [OPTIONS] [OLD NEW]",
    description="""\
Compares as aide-compare does, and prints what differs as a page for a browser, in one file.""",
    epilog=EPILOG,
)


class PageRequest(OutputRequest):
    """What the arguments ask for."""

    output = PAGE_ROW


def main(arguments: Sequence[str]) -> int:
    return print_comparison(PageRequest, HELP, arguments)
