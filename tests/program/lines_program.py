"""What tests of the program of lines share: its answer beside the definitions and the report."""
from __future__ import annotations

import json
from typing import Any

from tests.lib.answer import Answer, difference, run, shown
from tests.lib.program_test import ProgramTest
from tests.oracle.files import wanted, wanted_lines
from tests.oracle.session import USAGE

# The members of an object, each name once.
Members = dict[str, Any]


def pairs(members: list[tuple[str, Any]]) -> Members:
    names = [name for name, _ in members]
    if len(set(names)) < len(names):
        raise ValueError("a name stands twice")
    return dict(members)


def faults_of_lines(answer: Answer) -> list[str]:
    """What Python's `json` has against an answer: each line is one object, in which no name stands
    twice. Only a complete answer has a last line: after a fault the output may end anywhere."""
    faults, ends = [], 0
    for number, line in enumerate(answer.output.split(b"\n")[:-1], 1):
        try:
            fields = json.loads(line.decode("utf-8"), object_pairs_hook=pairs)
            if not isinstance(fields, dict):
                faults.append(f"line {number} is no object")
            ends += "end" in fields
        except ValueError as error:
            faults.append(f"line {number}: {error}")
    if answer.status > 7:
        return faults + (["a last line behind a fault"] if b'"end"' in answer.output else [])
    is_whole = ends == (b'"format":4' in answer.output)
    if answer.output.endswith(b"\n") and is_whole:
        return faults
    return [*faults, "the last line is not there, or has no end"]


class LinesProgramTest(ProgramTest):
    """The program of lines, beside the definitions and the program of the report."""

    def lines_faults(self, words: list[bytes], want: Answer, report: Answer) -> list[str]:
        """What is not as wanted of an answer, which ends as the report does. Each program says
        how to call itself."""
        answer = run(self.lines_program, words)
        faults = difference(answer, want) + faults_of_lines(answer)
        has_same_errors = answer.errors == report.errors or report.status == USAGE
        if answer.status != report.status or not has_same_errors:
            faults.append(f"the report: {shown(report.errors)}, {report.status}")
        return faults

    def beside(self, words: list[bytes]) -> tuple[int, list[str]]:
        """The status that is wanted, and what is not as wanted of the lines and of the report."""
        want, report = wanted_lines(words), run(self.program, words)
        faults = difference(report, wanted(words))
        return want.status, faults + self.lines_faults(words, want, report)

    def ends(self, label: str, words: list[bytes], *statuses: int) -> None:
        """A session, which has to end with one of these statuses if there are any."""
        status, faults = self.beside(words)
        if statuses and status not in statuses:
            faults = [*faults, f"status {status} is wanted"]
        self.add(label, faults)
