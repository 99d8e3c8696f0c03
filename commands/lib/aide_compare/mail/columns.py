"""Lines of at most 80 columns, but for a long word of a command: texts and commands."""
from __future__ import annotations

import shlex
from collections.abc import Iterable, Sequence
from textwrap import wrap


WIDTH = 80
MAX_NOTES = 6


def note_lines(notes: Iterable[str], limit: int = MAX_NOTES) -> list[str]:
    """Notes in so many lines. Those that have no room are counted."""
    lines = []
    for note in notes:
        lines += wrap(note, WIDTH, subsequent_indent="  ", break_on_hyphens=False)
    if len(lines) <= limit:
        return lines
    return [*lines[: limit - 1], f"({len(lines) - limit + 1} more lines)"]


def command_lines(words: Sequence[str], end: str = "") -> list[str]:
    """A command for a shell, in lines that can be copied as they are. A word is never broken."""
    lines = ["   "]
    parts = [shlex.quote(word) for word in words]
    if end:
        parts.append(end)
    for word in parts:
        if len(lines[-1]) + len(word) > WIDTH - len(" \\") - 1:
            lines[-1] += " \\"
            lines.append("     ")
        lines[-1] += f" {word}"
    return lines
