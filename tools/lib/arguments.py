"""The arguments of the tools: each says by --help what it does, and does nothing before it has read
its arguments."""
from __future__ import annotations

import argparse
import os
from collections.abc import Sequence


def parser_of(module: str, text: str | None) -> argparse.ArgumentParser:
    """A parser for a tool that is run as a module; `text` is its docstring."""
    raw = argparse.RawDescriptionHelpFormatter
    return argparse.ArgumentParser(
        prog="python3 -m " + module, description=text, formatter_class=raw
    )


def executable(path: str) -> str:
    """The whole path of an executable file, for `type=`."""
    if not os.path.isfile(path) or not os.access(path, os.X_OK):
        raise argparse.ArgumentTypeError("%s is not an executable file" % path)
    return os.path.abspath(path)


def add_program(parser: argparse.ArgumentParser) -> None:
    parser.add_argument(
        "program",
        metavar="PROGRAM",
        type=executable,
        help="the built program, crates/aide/out/aide",
    )


def add_names(parser: argparse.ArgumentParser, names: Sequence[str]) -> None:
    """Some of these names as arguments; none stands for all."""

    def known(name: str) -> str:
        if name not in names:
            raise argparse.ArgumentTypeError("no program of this name")
        return name

    text = "one of %s (all)" % ", ".join(names)
    parser.add_argument("names", nargs="*", metavar="NAME", type=known, help=text)
