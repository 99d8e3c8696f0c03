"""Standard output and standard error that fail."""
from __future__ import annotations

import os
import socket
import subprocess
import threading
from typing import Any

from tests.lib.answer import Answer, run
from tests.lib.program_test import ProgramTest, slow

from .folder import NEW, OLD, SKIPPING, Folder, FolderTest, names

NOT_WRITTEN = b"aide: cannot write the report\n"
LEAST_PAGE = 1000
# Pairs of which something is said on standard error.
FAULTS = [("a fault", OLD[:40], NEW), ("skipped columns", SKIPPING, SKIPPING)]


def closed_pipe() -> int:
    """The end to write to of a pipe that nobody reads."""
    reading, writing = os.pipe()
    os.close(reading)
    return writing


def check_outputs(test: ProgramTest, label: str, program: bytes, words: list[bytes]) -> None:
    """An output that fails ends with 18, however it fails."""
    lost = Answer(b"", NOT_WRITTEN, 18)
    with open("/dev/full", "wb") as full:
        test.check(label + " to a full device", run(program, words, stdout=full), lost)
    writing = closed_pipe()
    test.check(label + " to a closed pipe", run(program, words, stdout=writing), lost)
    os.close(writing)
    answer = run(program, words, preexec_fn=lambda: os.close(1))
    test.check(label + " without standard output", answer, lost)


def written(folder: Folder, program: bytes, stream: str) -> list[bytes]:
    """What each write to a stream writes, which a socket of datagrams keeps apart."""
    ours, theirs = socket.socketpair(socket.AF_UNIX, socket.SOCK_DGRAM)
    parts: list[bytes] = []

    def receive() -> None:
        while not parts or parts[-1] != b"":
            parts.append(ours.recv(2**20))

    reader = threading.Thread(target=receive, daemon=True)
    reader.start()
    with ours, theirs:
        folder.run(program, **{stream: theirs})
        theirs.send(b"")
        reader.join(5)
    return parts[:-1]


@slow
class DevicesTest(FolderTest):
    def answered(self, label: str, want: Answer, *more: bytes, **streams: Any) -> None:
        """The program answers so over the files of the folder."""
        self.check(label, self.folder.run(self.program, *more, **streams), want)

    def test_standard_output(self) -> None:
        """A report that is not written; a quiet run without differences writes nothing."""
        self.folder.pair(SKIPPING, SKIPPING)
        check_outputs(self, "a report", self.program, self.folder.words())
        quiet = Answer(b"", self.folder.wanted().errors, 0)
        with open("/dev/full", "wb") as full:
            for stream in (subprocess.DEVNULL, full):
                self.answered("quiet", quiet, b"-B", b"report_quiet=yes", stdout=stream)
        self.folder.pair(OLD, names(20000))
        with open(self.folder.at("long"), "w+b") as file:
            answer = self.folder.run(self.program, stdout=file)
            file.seek(0)
            self.check("a long report", answer._replace(output=file.read()), self.folder.wanted())

    def test_standard_error(self) -> None:
        """What becomes of standard error changes neither the output nor the status."""
        for label, old, new in FAULTS:
            self.folder.pair(old, new)
            want = self.folder.wanted()._replace(errors=b"")
            with open("/dev/full", "wb") as full:
                self.answered("a full standard error, " + label, want, stderr=full)
            writing = closed_pipe()
            self.answered("a closed standard error, " + label, want, stderr=writing)
            os.close(writing)
            gone = {"preexec_fn": lambda: os.close(2)}
            self.answered("no standard error, " + label, want, **gone)

    def test_writes(self) -> None:
        """A line of standard error is never cut between writes. A long report goes out in pages."""
        for label, old, new in FAULTS:
            self.folder.pair(old, new)
            parts = written(self.folder, self.program, "stderr")
            is_whole = all(part.endswith(b"\n") for part in parts)
            is_right = is_whole and b"".join(parts) == self.folder.wanted().errors
            self.holds("writes of whole lines, " + label, is_right, parts)
        self.folder.pair(OLD, names(20000))
        parts, want = written(self.folder, self.program, "stdout"), self.folder.wanted().output
        is_good = b"".join(parts) == want and len(parts) < len(want) / LEAST_PAGE
        self.holds("writes of pages", is_good, (len(parts), len(want)))
