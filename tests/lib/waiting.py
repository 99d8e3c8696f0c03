"""Waiting for what another process does."""
from __future__ import annotations

import os
import time
from collections.abc import Callable, Sequence


def until(condition: Callable[[], object], seconds: float = 60) -> bool:
    """Asks again and again until something is so, and says whether it came so in that time."""
    limit = time.monotonic() + seconds
    while not condition():
        if time.monotonic() > limit:
            return False
        time.sleep(0.01)
    return True


def is_alive(number: int) -> bool:
    """Whether a process is there that has not ended."""
    try:
        with open("/proc/%d/stat" % number, encoding="ascii", errors="replace") as file:
            return file.read().rpartition(")")[2].split()[0] != "Z"
    except OSError:
        return False


def waits(number: int, where: str, has_open: Callable[[Sequence[str]], bool]) -> bool:
    """Whether a process waits in a function of the kernel with this text in its name, and the names
    of what it has open meet a condition."""
    try:
        names = [
            os.readlink("/proc/%d/fd/%s" % (number, name))
            for name in os.listdir("/proc/%d/fd" % number)
        ]
        with open("/proc/%d/wchan" % number, encoding="ascii") as file:
            return where in file.read() and has_open(names)
    except OSError:
        return False
