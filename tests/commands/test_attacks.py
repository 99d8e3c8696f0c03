"""Attacks on aide-compare: none gives a wrong answer, a comparison's status, or an endless run."""
from __future__ import annotations

import gzip
import os
import signal
import subprocess
import time
from typing import Any
from unittest import mock

from tests.lib.answer import Answer
from tests.lib.program_test import slow

from .sandbox import AS_NOBODY, CommandTest, NEW, NOBODY, OLD

TOOL = "aide-compare compare --report"
LIMITED = "resource.setrlimit(resource.RLIMIT_%s, (%d, %d))"
BEFORE = b"as before\n"


def is_compared(answer: Answer) -> bool:
    return answer.status == 7 and b"Changed entries:         2" in answer.output


@slow
class AttacksTest(CommandTest):
    def compared(self, *words: str, **more: Any) -> Answer:
        answer = self.call(TOOL, *words, **more)
        self.holds(str(words), is_compared(answer), answer)
        return answer

    def with_memory(self, size: int, tool: str, *words: str) -> Answer:
        return self.call(tool, *words, before=LIMITED % ("AS", size << 20, size << 20))

    def test_few_descriptors(self) -> None:
        for count in range(4, 26):
            self.write("state", BEFORE)
            few = LIMITED % ("NOFILE", count, count)
            answer = self.call(TOOL, "old.db", "new.db", "--state", "state", before=few)
            is_refused = answer.status == 18 and answer.errors.startswith(b"aide-compare: cannot ")
            good = is_compared(answer) or count <= 23 and is_refused
            self.holds("%d descriptors" % count, good and not self.leftovers(), answer)
            is_told = self.state().get("status") == str(answer.status)
            is_kept = self.read("state") == BEFORE and b"cannot write the state" in answer.errors
            self.holds("the state with %d" % count, is_told or count < 5 and is_kept, answer)

    def test_closed_streams(self) -> None:
        """A command whose standard streams are closed puts nothing of a database there."""
        for closed in ("0", "1", "2", "0, 1, 2"):
            before = "; ".join("os.close(%s)" % number for number in closed.split(", "))
            words = (TOOL, "old.db", "new.db.gz", "--state", "state")
            status = self.call(*words, before=before).status
            self.assertEqual(status, 18 if "1" in closed else 7, closed)
            self.assertEqual(self.state()["status"], str(status), closed)

    def test_little_memory(self) -> None:
        """From the size on with which the interpreter reads the command itself. The first ones are
        too small for its modules."""
        self.write("alone/aide-compare", self.read("bin/aide-compare"), 0o755)
        alone = (
            size
            for size in range(4, 60)
            if b"cannot start: " in self.with_memory(size, "../alone/aide-compare").errors
        )
        least = next(alone, 60)
        self.assertLess(least, 40, "the interpreter starts with little memory")
        for size in [*range(least, least + 6), *range(least + 6, 60, 3)]:
            self.write("state", BEFORE)
            answer = self.with_memory(size, TOOL, "old.db", "new.db", "--state", "state")
            status = 22 if b": out of memory\n" in answer.errors else 18
            is_named = answer.errors.startswith((b"aide-compare: ", b"aide: "))
            is_refused = answer.status == status and is_named
            self.holds("%d MB of memory" % size, is_compared(answer) or is_refused, answer)
            is_new = self.read("state") != BEFORE and self.state()["status"] == str(answer.status)
            is_kept = not is_compared(answer) and self.read("state") == BEFORE
            self.holds("the state with %d MB" % size, is_new or is_kept, self.read("state"))
        none = "import builtins, runpy\nbuiltins.bytearray = 0\nrunpy.run_path('bin/aide-compare', run_name='__main__')"
        words, no = ["/usr/bin/python3", "-ISc", none], subprocess.DEVNULL
        self.assertEqual(subprocess.call(words, cwd=self.root, stderr=no), 18, "no reserve at all")

    def test_broken_off(self) -> None:
        """What breaks a comparison off is told as what it is, by the state too."""
        faults: list[tuple[Exception, int, bytes]] = [
            (MemoryError(), 22, b"out of memory"),
            (OSError(5, "why"), 18, b"why"),
        ]
        for raised, status, said in faults:
            self.patch("commands.comparison_job.open_databases", mock.Mock(side_effect=raised))
            self.refused(status, said, TOOL, "old.db", "new.db", state="state")

    def test_no_process(self) -> None:
        self.needs_root()
        none = AS_NOBODY + "; " + LIMITED % ("NPROC", 1, 1)
        self.refused(18, b"cannot run ", TOOL, "old.db", "new.db", before=none)

    def test_each_moment(self) -> None:
        """SIGTERM and SIGKILL at 60 moments of a run: it ends at once, and the state is the former
        one or the whole new one."""
        words = (TOOL, "old.db.gz", "new.db.gz", "--state", "state")
        begun = time.monotonic()
        self.call(*words)
        length = time.monotonic() - begun
        for turn in range(60):
            self.write("state", BEFORE)
            process = self.start(*words)
            time.sleep(length * turn / 50)
            process.send_signal((signal.SIGTERM, signal.SIGKILL)[turn % 2])
            process.communicate(timeout=20)
            self.assertIn(process.returncode, (7, -signal.SIGTERM, -signal.SIGKILL), turn)
            is_whole = self.read("state") == BEFORE or self.state().get("status") == "7"
            self.assertTrue(is_whole, (turn, self.read("state")))
            self.assertEqual(self.leftovers(), [], turn)

    def test_waiting(self) -> None:
        """Nobody writes to a FIFO, and a device never ends: both are refused at once."""
        os.mkfifo(self.path("fifo"))
        for names in ("fifo new.db", "old.db fifo", "/dev/zero new.db", "old.db /dev/tty"):
            self.refused(18, b"not a regular file", TOOL, *names.split(), limit=60)
        self.refused(18, b"it is a FIFO", TOOL, "-c", "fifo", "old.db", "new.db")
        self.refused(18, b"cannot open the old", TOOL, "/dev/fd/4", "new.db")
        for name in ("/dev/stdin", "/dev/fd/0", "/proc/self/fd/0"):
            self.compared(name, "new.db", text=gzip.compress(OLD))
        if os.access("/proc/kmsg", os.R_OK):
            for _ in range(2):  # The first one takes what is there.
                answer = self.call(TOOL, "-c", "/proc/kmsg", "old.db", "new.db", limit=60)
            self.assertIn(answer.status, (17, 18), answer)
            self.assertNotIn(b"a fault of this command", answer.errors)

    def test_links(self) -> None:
        """A link of another user is followed nowhere; one of root's is, where it is safe."""
        self.needs_root()
        self.write("his/new.db", NEW)
        self.write("secret/new.db", NEW, 0o600)
        for name, target in (
            ("his/link", self.path("secret/new.db")),
            ("his/folder", self.path("secret")),
            ("mine", self.path("secret")),
        ):
            os.symlink(target, self.path(name))
        for name in ("his", "his/link", "his/folder"):
            os.chown(self.path(name), NOBODY, NOBODY, follow_symlinks=False)
        for name in ("his/link", "his/folder/new.db"):
            self.refused(18, b"is not followed", TOOL, "old.db", name)
        for name in ("his/new.db", "mine/new.db"):
            self.compared("old.db", name)

    def test_user(self) -> None:
        """Root compares with the rights of a user, and nobody else gets another one's."""
        self.needs_root()
        self.write("secret.db", OLD, 0o600)
        self.refused(18, b"ermission denied", TOOL, "--user", "nobody", "secret.db", "new.db")
        self.compared("--user", "nobody", "old.db", "new.db.gz")
        his = {"before": AS_NOBODY}
        self.compared("--user", "nobody", "old.db", "new.db", **his)
        told = b"only root can become root"
        self.refused(15, told, TOOL, "--user", "root", "old.db", "new.db", **his)
        self.refused(15, b"no user", TOOL, "--user", "nobody-else", "old.db", "new.db")
        os.makedirs(self.path("out"))
        os.chmod(self.path("out"), 0o700)
        words = (TOOL, "--user", "nobody", "old.db", "new.db", "--state", "out/state")
        self.refused(18, b"cannot write the state file", *words)

    def test_long_report(self) -> None:
        self.set_names("base.options", MAX_REPORT_BYTES=100)
        told = b"the report has more than 100 bytes"
        self.refused(18, told, TOOL, "--report", "old.db", "new.db", state="state")

    def test_closed_pipes(self) -> None:
        """A command whose reader has ended says nothing, and did not compare."""
        for tool, *words in (
            (TOOL, "old.db", "new.db", "--state", "state"),
            ("aide-compare", "old.db", "new.db", "--state", "state"),
            ("aide-compare json", "old.db", "new.db", "-q"),
            ("aide-compare sort", "new.db"),
        ):
            reading, writing = os.pipe()
            os.close(reading)
            process = self.start(tool, *words, stdout=writing)
            os.close(writing)
            errors = process.communicate()[1]
            self.assertEqual(process.returncode, 18, (tool, errors))
            self.assertNotRegex(errors, rb"nobody|pipe|cannot|failed|Traceback", tool)
            if "state" in words:
                self.assertEqual(self.state()["status"], "18", tool)
                os.remove(self.path("state"))
