"""Tests of the built programs: each answer is compared with the wanted one."""
from __future__ import annotations

import os
import random
import shutil
import unittest
from collections.abc import Sequence

from tests.lib.answer import Answer, difference
from tests.lib.programs import find_program, lines_program_of
from tests.lib.scratch import Scratch

QUICK = "AIDE_QUICK"
# For tests that take long: `tools/quick` leaves them out.
slow = unittest.skipIf(bool(os.environ.get(QUICK)), "it takes long")
# How many random sessions each test of them tries.
SESSIONS = int(os.environ.get("AIDE_SESSIONS") or (150 if os.environ.get(QUICK) else 500))


def new_seed() -> int:
    """The seed of random tests: a new one, or AIDE_SEED's, to repeat a failure, which names it."""
    return int(os.environ.get("AIDE_SEED") or random.SystemRandom().randrange(10**9))


class StatedTest(unittest.TestCase):
    """A test of statements, each with a label, which may need what a machine can lack."""

    def needs(self, *programs: str) -> None:
        missing = [name for name in programs if shutil.which(name) is None]
        if missing:
            self.skipTest("not installed: " + " ".join(missing))

    def needs_root(self) -> None:
        if os.getuid() != 0:
            self.skipTest("it needs root")

    def holds(self, label: str, good: object, got: object = "") -> None:
        """Something is so; `got` is shown if it is not."""
        with self.subTest(label):
            self.assertTrue(good, got)


class ScratchTest(Scratch, StatedTest):
    """A test with a folder of its own."""

    def setUp(self) -> None:
        super().setUp()
        self.make()
        self.addCleanup(self.remove)


class AnswerTest(StatedTest):
    def add(self, label: str, faults: Sequence[str]) -> None:
        with self.subTest(label):
            if faults:
                self.fail("\n".join(faults))

    def check(self, label: str, got: Answer, want: Answer) -> None:
        """The answer of a program is the wanted one."""
        self.add(label, difference(got, want))


class ProgramTest(AnswerTest):
    """A test of the programs that were built."""

    def setUp(self) -> None:
        program = find_program()
        self.program = os.fsencode(program)
        self.lines_program = os.fsencode(lines_program_of(program))
