"""A command on a terminal."""
from __future__ import annotations

import fcntl
import os
import pty
import select
import struct
import subprocess
import termios
import time
from typing import Any

# Only for a command that hangs: on a machine with much other work it may take minutes.
SECONDS = 300


class Terminal:
    """A command on a terminal of so many columns: what it has printed, and what is typed."""

    def __init__(self, words: list[str], columns: int = 80, **more: Any) -> None:
        self.ours, theirs = pty.openpty()
        fcntl.ioctl(theirs, termios.TIOCSWINSZ, struct.pack("HHHH", 24, columns, 0, 0))
        streams: dict[str, Any] = dict.fromkeys(("stdin", "stdout", "stderr"), theirs)
        self.process = subprocess.Popen(words, **{**streams, **more})
        os.close(theirs)
        self.text = b""

    def read(self, until: bytes | None = None) -> None:
        """Reads up to some bytes, or to the end."""
        deadline = time.monotonic() + SECONDS
        while until is None or until not in self.text:
            ready, _, _ = select.select([self.ours], [], [], max(deadline - time.monotonic(), 0))
            try:
                block = os.read(self.ours, 1 << 16) if ready else b""
            except OSError:  # So Linux tells the end of a terminal.
                block = b""
            if not block:
                return
            self.text += block

    def type(self, text: bytes) -> None:
        os.write(self.ours, text)

    def end(self) -> tuple[int, bytes]:
        """The status of the command, and all that it has printed."""
        self.read()
        os.close(self.ours)
        return self.process.wait(SECONDS), self.text.replace(b"\r\n", b"\n")

    def answered(self, question: bytes, answer: bytes) -> tuple[int, bytes]:
        """The same of a command whose question, if it asks one, gets an answer."""
        self.read(question)
        if question in self.text:
            self.type(answer)
        return self.end()
