"""aide-compare json: what differs as lines of JSON."""
from __future__ import annotations

from collections.abc import Sequence

from aide_compare.base.parser import Help
from aide_compare.commands.compare import print_comparison
from aide_compare.commands.compare_request import EPILOG, OutputRequest
from aide_compare.show.outputs import JSON_ROW

HELP = Help(
    name="aide-compare json",
    usage="%(prog)s [OPTIONS] [OLD NEW]",
    description="""\
Compares as aide-compare does, and prints what differs as lines of JSON: one object a line, as
aide-compare-json(1) describes them.""",
    epilog=EPILOG,
)


class JsonRequest(OutputRequest):
    """What the arguments ask for."""

    output = JSON_ROW


def main(arguments: Sequence[str]) -> int:
    return print_comparison(JsonRequest, HELP, arguments)
