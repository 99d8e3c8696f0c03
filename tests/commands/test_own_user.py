"""What AIDE's own user meets: tests that root runs once more with the rights of another user."""
from __future__ import annotations

import os
import shutil
import subprocess

from tests.lib.answer import run
from tests.lib.program_test import slow
from tests.lib.copies import COMPILED, copy_sources
from tests.lib.programs import VARIABLE

from .sandbox import AS_NOBODY, PYTHON, CommandTest, after

OF_QUEUES = "missing queue odd_queue full_queue short".split()
TESTS = (
    *("test_mail.TextsTest.test_" + name for name in ("texts", "errors")),
    *("test_mail.QueueTest.test_" + name for name in OF_QUEUES),
    *("test_run.RunTest.test_" + name for name in ("state", "failed_states")),
    "test_accept.AcceptTest.test_digests",
    "test_accept.AcceptPartlyTest.test_open",
    "test_faults.FaultsTest.test_rooms",
    "test_hands.HandsTest.test_faulty_defaults",
)


@slow
class OwnUserTest(CommandTest):
    def test_as_another_user(self) -> None:
        self.needs_root()
        directory = self.path("repository")
        copy_sources(directory)
        os.mkdir(self.path("programs"))
        program = shutil.copy(self.program, self.path("programs/aide"))
        shutil.copy(self.lines_program, self.path("programs/aide_lines"))
        words = [PYTHON, "-m", "unittest", *("tests.commands." + name for name in TESTS)]
        python, *words = after(AS_NOBODY, words)
        given = {**os.environ, VARIABLE: program, "TMPDIR": self.room, COMPILED: ""}
        done = run(python, words, cwd=directory, env=given, stderr=subprocess.STDOUT)
        self.assertEqual(done.status, 0, done.output_text)
        self.assertIn(b"\nOK (skipped=2)\n", done.output, "parts of two tests need root")
