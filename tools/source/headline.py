"""Writes the page with all definitions that the headlines rest on, for a person who reads them: a
file that nobody commits. With --write it writes the blocks and tables of docs/PROVED.md instead,
which has the definitions that decide what is silent.
"""
from __future__ import annotations

import os
import sys

from tests.lib.scratch import TOP
from tools.lib.arguments import parser_of
from tools.source.headline_page import whole
from tools.source.proved_page import PROVED, proved

# Where the page is written, if no other file is named.
MADE = "out/headline.md"


def main() -> int:
    parser = parser_of("tools.source.headline", __doc__)
    parser.add_argument("--write", action="store_true", help=f"write the blocks of {PROVED}")
    parser.add_argument("file", nargs="?", default=MADE, help=f"where the page goes ({MADE})")
    arguments = parser.parse_args()
    name = os.path.join(TOP, PROVED) if arguments.write else os.path.abspath(arguments.file)
    text = proved() if arguments.write else whole()
    os.makedirs(os.path.dirname(name), exist_ok=True)
    with open(name, "w", encoding="utf-8") as file:
        file.write(text)
    return 0


if __name__ == "__main__":
    sys.exit(main())
