"""The time of now as files have it."""
from __future__ import annotations

import time

# The kernel writes into a file the time of its last tick, which is up to a hundredth of a second
# behind its clock; a file on another machine's disk has that one's time.
LAG = 0.02


def before_now() -> float:
    """A time for a file that has to be older than whatever is written from now on."""
    return time.time() - LAG
