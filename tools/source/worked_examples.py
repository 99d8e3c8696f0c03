"""Reads the worked examples of definitions: what the proofs of `aide_line_laws` state of each,
which `rt check` proves, and the entries and lists that these examples are about."""
from __future__ import annotations

import re
import sys

from tests.lib.scratch import read
from tools.source.definition_lines import shown, wrapped
from tools.source.definitions import File, Place, imports_of

FOLDER = "crates/aide_line_laws/proofs"
ENTRIES, LISTS = "Examples.antt", "ListExamples.antt"
# `is_own_example_times` is an example of `is_own`; its statement ends where its proof begins.
STATEMENT = re.compile(r"^pub ((\w+)_example\w*) :\s+(.*?)\n(?:unfolding|\1)\b", re.M | re.S)
MARK = "-- Example: "
MORE = "--     "


def examples_of(file: str) -> dict[Place, list[str]]:
    """The lines with the examples of each definition, which the file imports by its name."""
    text = read(f"{FOLDER}/{file}")
    imports = imports_of(text)
    found: dict[Place, list[str]] = {}
    for law, name, statement in STATEMENT.findall(text):
        if name not in imports:
            sys.exit(f"{file}: {law} is an example of no definition")
        joined = " ".join(line.strip() for line in statement.split("\n"))
        first, *more = wrapped(MARK + joined, "")
        found.setdefault(imports[name], []).extend([first, *wrapped(" ".join(more), MORE)])
    return found


def things_of(file: str) -> list[str]:
    """Lines with the entries and lists that the examples of a file are about: its public
    definitions that have a sentence and are no examples."""
    lines: list[str] = []
    for name, definition in File(read(f"{FOLDER}/{file}")).definitions.items():
        if definition.sentence and "pub " in definition.lines[0] and "_example" not in name:
            lines += shown(definition)
    return lines
