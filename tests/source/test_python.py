"""How the Python here is written: mypy --strict, pyflakes and black find nothing to change."""
from __future__ import annotations

import shutil
import subprocess
import unittest

from tests.lib.answer import run
from tests.lib.scratch import TOP

CHECKED = ("commands", "commands/bin/aide-compare", "tests", "tools", "bench")
# A run of mypy takes one program of these: both have the name __main__.
PROGRAMS = ("packaging/completions", "packaging/install")


class Python(unittest.TestCase):
    def check(self, names: tuple[str, ...], *words: str) -> None:
        """Runs a checker, which has one of these names on PATH."""
        found = [path for path in [shutil.which(name) for name in names] if path]
        if not found:
            self.skipTest(f"not installed: {names[0]}")
        answer = run(found[0], words, cwd=TOP, stderr=subprocess.STDOUT)
        self.assertEqual(answer.status, 0, answer.output_text)

    def test_types(self) -> None:
        for words in (CHECKED, *([program] for program in PROGRAMS)):
            self.check(("mypy",), "--cache-dir=/dev/null", "--strict", *words)

    def test_names(self) -> None:
        self.check(("pyflakes3", "pyflakes"), *CHECKED, *PROGRAMS)

    def test_layout(self) -> None:
        self.check(("black",), "--check", "--quiet", *CHECKED, *PROGRAMS)
