"""A question on a terminal, and what a person answers."""
from __future__ import annotations

import os
import termios

from aide_compare.base.ending import write_all
from aide_compare.base.escapes import encoded, guarded

MAX_ANSWER = 4096  # No line of a terminal is longer, so nothing is left of one.


def answer_to(question: str) -> str:
    """What a person types after a question. What was typed before it was there does not count."""
    termios.tcflush(0, termios.TCIFLUSH)
    write_all(1, encoded(guarded(question)))
    return os.read(0, MAX_ANSWER).decode("utf-8", "replace").strip().lower()
