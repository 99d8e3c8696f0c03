"""aide-compare accept is killed before its calls, each time that the disk may have changed, also on
an old file system; and what is on the disk when."""
from __future__ import annotations

import os

from tests.lib.program_test import slow

from .accepting import DONE, OLDER, AcceptingTest, accept_at, contents, forked, fresh
from .forked import Forked
from .sandbox import NEW, NOBODY, OLD

KILLED = 1
NAMING = ("linkat", "renameat", "renameat2")
# After these calls the disk is as before them.
READING = ("read", "pread64", "fstatat64", "flock", "setresuid")


@slow
class AcceptKillsTest(AcceptingTest):
    def test_order(self) -> None:
        """The new file is on the disk before it has a name, and the folder after the last name has
        changed."""
        command = forked(self)
        for old in (0, 1):
            fresh(self)
            done = accept_at(command, AT_NOTES=2, AT_OLD=old)
            self.assertEqual((done.status, contents(self)), (0, DONE), done)
            calls = done.error_text.split()
            self.assertIn("fsync", calls, f"old {old}")
            first, last = calls.index("fsync"), len(calls) - 1 - calls[::-1].index("fsync")
            names = [place for place, call in enumerate(calls) if call in NAMING]
            self.assertTrue(names and first < min(names) and max(names) < last, calls)

    def test_in_own_folder(self) -> None:
        self.kill_everywhere(None)

    def test_old_file_system(self) -> None:
        self.kill_everywhere(None, old=1)

    def test_in_anothers_folder(self) -> None:
        self.needs_root()
        self.kill_everywhere(NOBODY)

    def kill_everywhere(self, owner: int | None, old: int = 0) -> None:
        """Each time that the disk may be another than at the call before."""
        command = forked(self)
        fresh(self, owner)
        calls = accept_at(command, AT_NOTES=2, AT_OLD=old).error_text.split()
        self.assertGreater(len(calls), 12)
        for number, former in enumerate(["", *calls[:-1]], 1):
            if former not in READING:
                fresh(self, owner)
                self.kills(command, {"AT_NUMBER": number, "AT_OLD": old})

    def kills(self, command: Forked, options: dict[str, int]) -> None:
        """The command is killed at a call. The baseline is whole, the next run right."""
        done = accept_at(command, AT_WAY=KILLED, **options)
        self.assertEqual(done.status, -9, (options, done))
        baseline, former, new, _ = contents(self)
        self.assertIn(baseline, (OLD, NEW), options)
        self.assertEqual(new, NEW, options)
        # If the former one is gone, the next run finds it, as is seen below.
        self.assertTrue(former == OLDER or (baseline, former) == (NEW, OLD), (options, former))
        self.assertEqual(os.stat(self.path("base/aide.db")).st_mode & 0o777, 0o600, options)
        again = accept_at(command, AT_NUMBER=0)
        self.assertEqual((again.status, contents(self)), (0, DONE), (options, again))
