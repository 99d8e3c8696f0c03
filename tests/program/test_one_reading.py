"""The program of lines opens and reads each database once: through FIFOs, and databases that are
replaced while they are read.

After a fault the output is a beginning of the lines, and has no last line.
"""
from __future__ import annotations

import os
import subprocess
import time
from collections.abc import Callable

from tests.lib.answer import Answer
from tests.oracle.files import wanted_lines
from tests.program.real_files.folder import EMPTY, FILES, NEW, OLD, SKIPPING, Folder, names
from tests.program.real_files.test_fifos import fed
from tests.program.lines_program import LinesProgramTest

# So many bytes are in a pipe that nobody reads.
PIPE = 1 << 16


def read_slowly(program: bytes, words: list[bytes], at_first: Callable[[], None]) -> Answer:
    """The answer of a program, read slowly, whose files change when its first bytes have come."""
    process = subprocess.Popen(
        [program, *words],
        stdin=subprocess.DEVNULL,
        stdout=subprocess.PIPE,
        stderr=subprocess.PIPE,
        bufsize=0,
    )
    assert process.stdout and process.stderr
    output = process.stdout.read(1)
    at_first()
    while block := process.stdout.read(5000):
        output += block
        time.sleep(0.001)
    errors = process.stderr.read()
    process.stdout.close()
    process.stderr.close()
    return Answer(output, errors, process.wait())


def replace(folder: Folder, name: str, text: bytes) -> None:
    folder.write("next", text)
    os.replace(folder.at("next"), folder.at(name))


class OneReadingTest(LinesProgramTest):
    def test_openings(self) -> None:
        """Through FIFOs that can be opened once. Another text at a second opening is never read."""
        other = EMPTY + b"other\n"
        with Folder() as folder:
            for label, texts in (
                ("two databases", [OLD, NEW]),
                ("two long databases", [names(6000), SKIPPING]),
                ("four long databases", [OLD, names(6000), SKIPPING, names(6000)]),
                ("four databases with a fault", [names(6000), NEW, OLD, OLD[:-9]]),
            ):
                words = folder.put(texts)
                want = wanted_lines(words)
                by_path = {
                    folder.at(name): [text, other] for name, text in zip(FILES, texts) if text
                }
                answer, openings = fed(self.lines_program, words, by_path)
                self.check(label, answer, want)
                self.holds(label + ", openings", openings == [1] * len(texts), openings)

    def test_slow_reader(self) -> None:
        """A reader that is slow gets the lines of what was opened, also if the names belong to
        other files meanwhile."""
        for texts in ([OLD, names(9000)], [names(9000), SKIPPING, OLD, names(9000)]):
            with Folder() as folder:
                words = folder.put(texts)
                want = wanted_lines(words)

                def replace_all() -> None:
                    for name in FILES[: len(texts)]:
                        replace(folder, name, EMPTY)

                answer = read_slowly(self.lines_program, words, replace_all)
                self.check(f"{len(texts)} databases", answer, want)
                self.holds("a full pipe", len(answer.output) > 3 * PIPE, len(answer.output))
