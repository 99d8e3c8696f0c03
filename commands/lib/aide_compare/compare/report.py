"""The report of the proved program."""
from __future__ import annotations

import os

from aide_compare.base.ending import DeviceFault, write_all
from aide_compare.base.files import nameless
from aide_compare.base.program import PROGRAM, Answer, find_installed
from aide_compare.base.words import SIDES
from aide_compare.compare.asking import ask_for_changes, odd_answer
from aide_compare.compare.comparison import Comparison, Refusal
from aide_compare.compare.hints import hints_of

NO_DIFFERENCE = b"AIDE found NO differences between the two databases.\n"
DIFFERENCE = b"AIDE found differences between the two databases.\n"


def begins_well(report: int, status: int) -> bool:
    """Whether a report, by its descriptor, begins as one of this status."""
    head = os.pread(report, len(NO_DIFFERENCE), 0)
    if status == 0:
        return not head or head.startswith(NO_DIFFERENCE)
    return head.startswith(DIFFERENCE)


def report_of(comparison: Comparison) -> int:
    """The descriptor of the program's own report, which knows nothing of a trusted pair. A Fault if
    it does not say what the lines have said, or has more bytes than the limit."""
    target = nameless()
    limit = comparison.request.max_report

    def take(block: bytes) -> None:
        if os.lseek(target, 0, os.SEEK_CUR) + len(block) > limit:
            raise DeviceFault(f"the report has more than {limit} bytes")
        write_all(target, block)

    program = find_installed(PROGRAM)
    texts = comparison.texts
    pair = {side: comparison.copies[side].fd for side in SIDES}
    answer = ask_for_changes(program, texts, pair, take)
    if answer.status > 7:
        path = comparison.request.configuration
        raise Refusal(answer, hints_of(answer.errors, texts, path, comparison.copies))
    is_same = answer == Answer(comparison.status, comparison.errors)
    if not is_same or not begins_well(target, answer.status):
        raise odd_answer(program, answer)
    return target
