"""What a program answers, and how one answer differs from another."""
from __future__ import annotations

import subprocess
from collections.abc import Sequence
from typing import Any, NamedTuple

# Only for a program that hangs: on a machine with much other work a run may take minutes.
TIME_LIMIT = 600


class Answer(NamedTuple):
    """Both outputs of a program and its exit status."""

    output: bytes
    errors: bytes
    status: int

    @property
    def output_text(self) -> str:
        return self.output.decode(errors="replace")

    @property
    def error_text(self) -> str:
        return self.errors.decode(errors="replace")

    def __repr__(self) -> str:
        return f"status {self.status}, output {self.output!r:.400}, errors {self.errors!r:.600}"


def run(program: str | bytes, words: Sequence[str | bytes], **streams: Any) -> Answer:
    """What a program answers. An output that goes elsewhere is empty."""
    pipes = {"stdout": subprocess.PIPE, "stderr": subprocess.PIPE}
    places: dict[str, Any] = {"stdin": subprocess.DEVNULL, **pipes, **streams}
    done = subprocess.run([program, *words], timeout=TIME_LIMIT, **places)
    return Answer(done.stdout or b"", done.stderr or b"", done.returncode)


def shown(text: object) -> str:
    return f"{len(text)} bytes, {text!r:.600}" if isinstance(text, bytes) else repr(text)


def difference(given: Answer, want: Answer) -> list[str]:
    """What of an answer is not as wanted, in words; nothing where all is."""
    return [
        f"{name}: wanted {shown(two)}\n    given  {shown(one)}"
        for name, one, two in zip(Answer._fields, given, want)
        if one != two
    ]
