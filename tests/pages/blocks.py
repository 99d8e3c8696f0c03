"""The blocks that the pages show, each with the marks above it that say how it is tried.

A mark is a comment of the page, `<!-- ... -->` in Markdown and `.\\" ...` in a manual page:

    run STATUS          the block is run as it stands, and its last command ends with this status
    before COMMAND      runs first, in the same shell
    prints TEXT         what the block prints has this text
    is output of CMD    the block is what a command prints, but for numbers
    not run: WHY        a configuration, or what another test tries
    try: NAME           a recipe, which one of tests/pages/test_recipes*.py runs, and
    prints: NAME        the beginning of what it prints
    by hand: NAME       a recipe that needs another machine, or a person
    not tried: NAME     what a recipe prints on many machines
    no command: WHAT    a text that nobody runs
    from: FILE          a copy of a file
"""
from __future__ import annotations

import glob
import os
import re
from typing import NamedTuple

from tests.lib.scratch import TOP, read

RECIPES = ("docs/GUIDE.md", "docs/HOSTS.md")
MANUALS = sorted(
    os.path.relpath(path, TOP) for path in glob.glob(os.path.join(TOP, "man", "*.[1-8]"))
)
MARK = re.compile(
    r'^(?:<!-- |\.\\" )((?:run|before|prints|is output of|not run|try|by hand|not tried|no command'
    r"|from)\b.*?)(?: -->)?$"
)
ESCAPES = [("\\&", ""), ("\\e", "\\"), ("\\-", "-"), ("\\(aq", "'"), ("\\(dq", '"')]


class Block(NamedTuple):
    """A block of a page: its first line there, the marks above it, and its text."""

    page: str
    line: int
    marks: list[str]
    text: str

    def values(self, word: str) -> list[str]:
        """What stands behind a word in the marks."""
        return [mark[len(word) + 1 :] for mark in self.marks if mark.startswith(word + " ")]


def plain(line: str) -> str:
    """A line of a manual page without its macro, those that follow in the line, and its escapes."""
    if re.match(r"\.[A-Z][a-z1]\b", line):
        line = re.sub(r" (?:Ar|Fl|No|Pa|Xr)(?= )| (?=[.,:;](?: |$))", "", line[4:])
    for escape, letters in ESCAPES:
        line = line.replace(escape, letters)
    return line


def is_beginning(lines: list[str], at: int, is_manual: bool) -> bool:
    if is_manual:
        return lines[at].startswith((".Bd ", ".Dl ", ".D1 "))
    is_indented = lines[at].startswith("    ") and (at == 0 or not lines[at - 1].strip())
    return lines[at].startswith("```") or is_indented


def end_of(lines: list[str], at: int) -> tuple[int, list[str]]:
    """The line after a block that begins here, and its lines."""
    if lines[at].startswith((".Dl ", ".D1 ")):
        return at + 1, [plain(lines[at])]
    for begin, end in ((".Bd ", ".Ed"), ("```", "```")):
        if lines[at].startswith(begin):
            last = lines.index(end, at + 1)
            inside = lines[at + 1 : last]
            return last + 1, [plain(line) for line in inside] if end == ".Ed" else inside
    last = at
    while last < len(lines) and lines[last].startswith("    "):
        last += 1
    return last, [line[4:] for line in lines[at:last]]


def blocks_of(page: str) -> list[Block]:
    """The blocks of a page, in their order."""
    lines = read(page).split("\n")
    found: list[Block] = []
    marks: list[str] = []
    at = 0
    while at < len(lines):
        mark = MARK.match(lines[at])
        if is_beginning(lines, at, page.startswith("man/")):
            after, inside = end_of(lines, at)
            found.append(Block(page, at + 1, marks, "\n".join(inside) + "\n"))
            marks, at = [], after
            continue
        if mark:
            marks.append(mark[1])
        elif lines[at].strip():
            marks = []
        at += 1
    return found
