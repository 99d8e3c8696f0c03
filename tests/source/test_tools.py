"""Each script in Python of this repository says by --help what it does, and does nothing before it
has read its arguments.

It prints how it is called, as argparse says it, and all of its own text, and ends with 0. It
refuses an option that it does not have, with a status that is neither 0 nor 1. The commands in
commands/ have trials of their own.
"""
from __future__ import annotations

import ast
import os
import re
import subprocess
import sys
import unittest
from collections.abc import Iterator

from tests.lib.answer import Answer, run
from tests.lib.scratch import TOP
from tests.source.test_docs import read_text, tracked

# A test copies these next to the commands. They read no arguments.
COPIED = ("tests/commands/front.py", "tests/commands/served.py")
MAIN = re.compile("^if __name__ == ['\"]__main__['\"]:$", re.M)


def tools() -> Iterator[tuple[str, str]]:
    """The files of Python that are run, each with its text."""
    for name in sorted(tracked()):
        text = read_text(name)
        is_python = name.endswith(".py") or re.match("#!/usr/bin/(env )?python3", text)
        is_tool = is_python and name not in COPIED and not name.startswith("commands/")
        if is_tool and MAIN.search(text):
            yield name, text


def tree() -> dict[str, tuple[int, int]]:
    """What would show that a file of the repository was written: the time and the size of each."""
    found = {}
    for name in tracked():
        try:
            status = os.lstat(os.path.join(TOP, name))
        except OSError:
            continue
        found[name] = (status.st_mtime_ns, status.st_size)
    return found


def command_of(name: str) -> list[str]:
    """How a tool is run: as a module below tools/ or tests/, otherwise as a file."""
    if name.startswith(("tools/", "tests/")):
        return [sys.executable, "-S", "-m", name[: -len(".py")].replace("/", ".")]
    return [sys.executable, "-S", os.path.join(TOP, name)]


def answer_of(name: str, option: str) -> Answer:
    """What a tool answers to an option, with both outputs as one."""
    program, *words = command_of(name)
    environment = {**os.environ, "PYTHONDONTWRITEBYTECODE": "1"}
    return run(program, [*words, option], cwd=TOP, env=environment, stderr=subprocess.STDOUT)


def lacks(name: str, text: str, output: str) -> list[str]:
    """What the help of a tool lacks: the command itself, and the paragraphs of the tool's text."""
    paragraphs = (ast.get_docstring(ast.parse(text)) or "no text").split("\n\n")
    parts = [" ".join(each.split()) for each in paragraphs]
    if name.startswith(("tools/", "tests/")):
        parts.insert(0, f"usage: python3 -m {command_of(name)[-1]}")
    words = " ".join(output.split())
    return [part for part in parts if part not in words]


class Tools(unittest.TestCase):
    def test_each_tool(self) -> None:
        found = list(tools())
        self.assertGreater(len(found), 10, found)
        before = tree()
        for name, text in found:
            with self.subTest(name):
                helped = answer_of(name, "--help")
                self.assertEqual((helped.status, helped.output_text[:6]), (0, "usage:"), helped)
                self.assertEqual(lacks(name, text, helped.output_text)[:2], [])
                refused = answer_of(name, "--no-such-option")
                self.assertNotIn(refused.status, (0, 1), refused)
        self.assertEqual(tree(), before, "no file is written before the arguments are read")
