"""Limits from outside: memory, stack, sizes of files, pipes, files of 2 GB."""
from __future__ import annotations

import os
import resource
from collections.abc import Callable
from typing import Any

from tests.lib.answer import Answer, difference, run
from tests.lib.program_test import ProgramTest, slow
from tests.program import cases
from tests.program.configurations import limits

from .folder import Folder, NEW
from .test_fifos import Feeder

MEGABYTE, GIGABYTE = 2**20, 2**30
MINIMAL = b"report_level=minimal\n"
NOT_WRITTEN = b"aide: cannot write the report\n"
TOO_LARGE = b"aide: the configuration is longer than 4194304 bytes\n"
# A line may have a megabyte. The program and the FIFO have room for some of the bytes after it.
MOST_TAKEN = 2 * MEGABYTE


def limited(what: int, most: int) -> Callable[[], None]:
    return lambda: resource.setrlimit(what, (most, most))


def check_file_sizes(
    test: ProgramTest, label: str, program: bytes, words: list[bytes], want: Answer, step: int
) -> None:
    """An output to a file that may not grow over so many bytes: the last write is cut short."""
    size = len(want.output)
    with Folder() as folder:
        for most in [*range(0, size, step), size - 1, size]:
            streams = {"restore_signals": False, "preexec_fn": limited(resource.RLIMIT_FSIZE, most)}
            with open(folder.at("out"), "wb") as out:
                answer = run(program, words, stdout=out, **streams)
            with open(folder.at("out"), "rb") as out:
                given = Answer(out.read(), answer.errors, answer.status)
            cut = Answer(want.output[:most], NOT_WRITTEN, 18)
            fits = most == size
            test.check("%s to a file of %d bytes" % (label, most), given, want if fits else cut)


def sparse(folder: Folder, name: str, front: bytes, size: int) -> None:
    """A file that begins with some bytes and goes on with NUL bytes that take no room."""
    folder.write(name, front)
    os.truncate(folder.at(name), size)


@slow
class OutsideTest(ProgramTest):
    def test_file_sizes(self) -> None:
        with Folder() as folder:
            folder.pair()
            check_file_sizes(self, "a report", self.program, folder.words(), folder.wanted(), 31)

    def test_long_lines(self) -> None:
        """Sparse files of 2 GB that have one line, and FIFOs with a line of 32 MB: no more is read
        than shows that it is too long."""
        with Folder() as folder:
            begun = b"@@begin_db\n@@db_spec name\n"
            for front, line in ((b"", 1), (begun, 3), (begun + b"/a", 3), (b"@@begin_db\n#", 2)):
                folder.pair(options=MINIMAL)
                sparse(folder, "old", front, 2 * GIGABYTE)
                want = Answer(b"", b"aide: old database:%d: line too long\n" % line, 24)
                self.check("a line of 2 GB", folder.run(self.program), want)
                with Feeder(folder.at("old"), [front + b"\0" * (32 * MEGABYTE)]) as feeder:
                    answer = folder.run(self.program)
                faults = difference(answer, want)
                if not 0 < feeder.given < MOST_TAKEN:
                    faults.append("it took %d bytes" % feeder.given)
                self.add("a line of 32 MB", faults)

    def test_large_files(self) -> None:
        """Sparse files beyond the memory, read whole or as far as a configuration may reach."""
        same = b"AIDE found NO differences between the two databases.\n"
        with Folder() as folder:
            folder.pair(NEW, NEW, MINIMAL)
            for name, front, want in (
                ("old", NEW, Answer(same, b"", 0)),
                ("conf", b"", Answer(b"", TOO_LARGE, 17)),
            ):
                sparse(folder, name, front, 128 * MEGABYTE)
                few = limited(resource.RLIMIT_AS, 64 * MEGABYTE)
                self.check(name, folder.run(self.program, preexec_fn=few), want)
            answer = run(self.program, [b"-E", b"-c", b"/dev/zero"])
            self.check("a device as a configuration", answer, Answer(b"", TOO_LARGE, 17))

    def test_surroundings(self) -> None:
        """No environment, no standard input, a working folder that is gone."""
        with Folder() as folder:
            folder.pair()
            gone = folder.at("gone")
            os.mkdir(gone)
            rows: list[dict[str, Any]] = [
                {"env": {}},
                {"preexec_fn": lambda: os.close(0)},
                {"cwd": gone, "preexec_fn": lambda: os.rmdir(gone)},
            ]
            for streams in rows:
                answer = folder.run(self.program, **streams)
                self.check("other surroundings", answer, folder.wanted())


STACK = 64 * 1024


@slow
class StackTest(ProgramTest):
    def test_stack(self) -> None:
        """Every stored session and configurations beyond a limit, with 64 kB of stack, the
        arguments among them."""
        settings = {"preexec_fn": limited(resource.RLIMIT_STACK, STACK), "env": {}}
        for label, words, want in cases.in_turn(cases.all_cases()):
            self.check(label + " with little stack", run(self.program, words, **settings), want)
        for line, said, text in limits.REFUSED:
            with Folder() as folder:
                folder.write("conf", text)
                words = [b"-D", b"-c", folder.at("conf")]
                want = Answer(b"", b"aide: config:%d: %s\n" % (line, said.encode()), 17)
                answer = run(self.program, words, **settings)
                self.check(said + " with little stack", answer, want)
