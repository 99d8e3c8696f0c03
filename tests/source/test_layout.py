"""What `rt fmt` leaves as it is in each crate: cycles of modules, and long lines.

A line of specs/ has at most 100 characters, a line of comment at most 120, and an import or a line
of proofs/ at most 140.
"""
from __future__ import annotations

import graphlib
import pathlib
import re
import unittest
from collections.abc import Iterator

from tests.lib.scratch import TOP
from tools.source.definitions import crates

# The path of a module within its crate, none for the root, and which modules each one uses.
Module = tuple[str, ...]
Graph = dict[Module, set[Module]]
CRATES = pathlib.Path(TOP, "crates")
MOST_COLUMNS = 100
MOST_COMMENT_COLUMNS = 120
MOST_PROOF_COLUMNS = 140

USE = re.compile(r"^\s*(?:pub(?:\([^)]*\))?\s+)?use\s+([^;{]*)(?:\{([^{}]*)\})?;", re.M)


def split_uses(text: str) -> Iterator[list[str]]:
    """Each path of a `use` line of code, as a list of words. A ghost import names no code."""
    for head, names in USE.findall(text):
        for name in [each for each in names.split(",") if each.strip()] or [""]:
            yield [word.strip() for word in (head + name).split(" as ")[0].split("::")]


def module_of(source: pathlib.Path, file: pathlib.Path) -> Module:
    parts = file.relative_to(source).with_suffix("").parts
    if parts in (("lib",), ("main",)):
        return ()
    return parts[:-1] if parts[-1] == "mod" else parts


def imports_of(modules: dict[Module, str]) -> Graph:
    """For each module the modules that it uses. A name that the root passes on counts for the
    module it comes from."""
    passed_on = {}
    for path in split_uses(modules.get((), "")):
        inner = tuple(path[1:] if path[0] in ("crate", "self") else path)
        if inner[:1] in modules:
            passed_on[inner[-1]] = longest(modules, inner)
    graph = {}
    for module, text in modules.items():
        used = set()
        for path in split_uses(text):
            if path[0] == "crate":
                inner = tuple(path[1:])
            elif path[0] == "super":
                climbed = sum(1 for word in path if word == "super")
                inner = module[: len(module) - climbed] + tuple(path[climbed:])
            else:
                continue
            target = longest(modules, inner) or passed_on.get(inner[0] if inner else "", ())
            if target and target != module:
                used.add(target)
        graph[module] = used
    return graph


def longest(modules: dict[Module, str], path: Module) -> Module:
    """The longest beginning of a path that is a module."""
    beginnings = (path[:length] for length in range(len(path), 0, -1))
    return next((each for each in beginnings if each in modules), ())


def uses_in(crate: pathlib.Path) -> Graph:
    """Which modules of a crate each of them uses, by the lines of their `use` of these."""
    source = crate / "src"
    texts = {file: file.read_text(encoding="utf-8") for file in source.rglob("*.rt")}
    return imports_of({module_of(source, file): text for file, text in texts.items()})


def most_columns(part: str, line: str) -> int:
    if part == "proofs" or line.startswith("use "):
        return MOST_PROOF_COLUMNS
    return MOST_COMMENT_COLUMNS if line.lstrip().startswith(("//", "--")) else MOST_COLUMNS


def long_lines_in(crate: pathlib.Path) -> list[str]:
    """The lines that are too long. The code itself is in the layout of `rt fmt`."""
    return [
        f"{file.relative_to(crate)}:{number}: {len(line)} characters"
        for part, kind in (("src", "*.rt"), ("specs", "*.antt"), ("proofs", "*.antt"))
        for file in sorted((crate / part).rglob(kind))
        for number, line in enumerate(file.read_text(encoding="utf-8").splitlines(), 1)
        if len(line) > most_columns(part, line)
        if part != "src" or line.lstrip().startswith("//")
    ]


class Layout(unittest.TestCase):
    def test_modules_form_no_cycle(self) -> None:
        for name in crates():
            with self.subTest(name):
                graphlib.TopologicalSorter(uses_in(CRATES / name)).prepare()

    def test_no_line_is_too_long(self) -> None:
        for name in crates():
            self.assertEqual(long_lines_in(CRATES / name), [], name)
