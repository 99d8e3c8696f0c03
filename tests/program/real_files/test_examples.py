"""The databases in examples/, and what is known of them from outside."""
from __future__ import annotations

import glob
import os
import re

from tests.lib.answer import run
from tests.lib.program_test import ProgramTest
from tests.lib.scratch import TOP
from tests.oracle.files import wanted

EXAMPLES = os.path.join(TOP, "examples")
LABELS = {
    "total": "Total number of entries",
    "added": "Added entries",
    "removed": "Removed entries",
    "changed": "Changed entries",
}


def words_for(folder: str) -> list[bytes]:
    conf = os.fsencode(os.path.join(folder, "aide.conf"))
    return [b"-E", b"-c", conf, b"-B", os.fsencode("@@define DIR " + folder)]


def folders_of_aide() -> list[str]:
    """The folders with databases that AIDE has written."""
    found = glob.glob(os.path.join(EXAMPLES, "*", "aide-counts.txt"))
    return sorted(os.path.dirname(path) for path in found)


def told_by_aide(folder: str) -> tuple[int, dict[str, int]]:
    """What AIDE itself counts between the databases of a folder, by label, and its status."""
    with open(os.path.join(folder, "aide-counts.txt")) as file:
        counts = {label: int(number) for label, number in (line.split() for line in file)}
    return counts.pop("status"), counts


def counted(output: bytes) -> dict[str, int | None]:
    """The counts of a report's summary, by label."""
    text = output.decode("utf-8", "replace")
    found = {
        label: re.search("^  %s: +([0-9]+)$" % words, text, re.MULTILINE)
        for label, words in LABELS.items()
    }
    return {label: int(match.group(1)) if match else None for label, match in found.items()}


class ExamplesTest(ProgramTest):
    def test_written_by_aide(self) -> None:
        """What AIDE wrote: its counts and status, nothing skipped, the definitions' report."""
        self.add("examples by AIDE", [] if folders_of_aide() else ["there is none in " + EXAMPLES])
        for folder in folders_of_aide():
            label = "examples/" + os.path.basename(folder)
            status, counts = told_by_aide(folder)
            answer = run(self.program, words_for(folder))
            given = (answer.status, counted(answer.output), answer.errors)
            with self.subTest(label):
                self.assertEqual(given, (status, counts, b""))
            self.check(label, answer, wanted(words_for(folder)))
