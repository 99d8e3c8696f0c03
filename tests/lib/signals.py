"""The signals that a process begins with."""
from __future__ import annotations

import signal


def heed() -> None:
    """Heeds the signals that this process was started to ignore.

    `nohup` and a shell's `&` start a command with some signals ignored. Its children inherit that,
    and a shell cannot trap a signal that it was started to ignore.
    """
    for number in (signal.SIGHUP, signal.SIGINT, signal.SIGQUIT, signal.SIGTERM):
        if signal.getsignal(number) is signal.SIG_IGN:
            signal.signal(
                number, signal.default_int_handler if number == signal.SIGINT else signal.SIG_DFL
            )
