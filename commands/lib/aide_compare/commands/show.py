"""aide-compare show: the change at one path, with its values."""
from __future__ import annotations

import argparse
import os
from collections.abc import Sequence

from aide_compare.base.escapes import shown, unshown
from aide_compare.base.options import Operand, Option, field
from aide_compare.base.parser import Help
from aide_compare.base.paths import WILD, Pattern
from aide_compare.commands.compare import print_comparison
from aide_compare.commands.compare_request import EPILOG, PrintRequest

HELP = Help(
    name="aide-compare show",
    usage="%(prog)s [OPTIONS] PATH [OLD NEW]",
    description="""\
Compares as aide-compare does, and prints the change of PATH: its standing, its severity, and each
value that changed.""",
    epilog=EPILOG,
)


def one_path(text: str) -> Pattern:
    """The pattern that means one path, as it is or as it is printed."""
    path = unshown(os.fsencode(text))
    if not path.startswith(b"/"):
        raise argparse.ArgumentTypeError(f"it comes first and begins with /: {shown(path, 200)}")
    return Pattern(WILD.sub(rb"\\\g<0>", path.rstrip(b"/") or path))


class ShowRequest(PrintRequest):
    """What the arguments ask for."""

    pattern: Pattern | None = field(
        Operand("PATH", "as on the disk, or as it is printed", kind=one_path)
    )

    @classmethod
    def rows(cls) -> dict[str, Option | Operand]:
        """The rows, the path before the databases."""
        rows = super().rows()
        return {"pattern": rows.pop("pattern"), **rows}


def main(arguments: Sequence[str]) -> int:
    return print_comparison(ShowRequest, HELP, arguments)
