"""The text of a mail: at most 80 lines of 80 columns, but for a long word of a command.

It is what people read first of a comparison, with less room, and then two commands.
"""
from __future__ import annotations

import os
from collections.abc import Sequence
from typing import NamedTuple

from aide_compare.base.files import is_name
from aide_compare.changes.judged import Judged
from aide_compare.compare.comparison import Comparison
from aide_compare.compare.state import State
from aide_compare.mail.columns import command_lines, note_lines
from aide_compare.show.brief import brief
from aide_compare.show.digest import MAIL
from aide_compare.show.unjudged import unjudged_lines

MAX_LINES = 80


def accept_lines(state: State) -> list[str]:
    """The command that accepts what was read, and nothing else."""
    if not (state.old_sha256 and state.new_sha256):
        return []
    words = ["aide-compare", "accept", "--sha256", state.new_sha256]
    return [
        "This accepts what is reported here, and nothing else:",
        *command_lines([*words, *names_of(state, "new", "old")]),
    ]


def names_of(state: State, *sides: str) -> list[str]:
    """The names of databases for a command; what is no name is left to the reader."""
    names = {"old": state.old, "new": state.new}
    if not all(map(is_name, names.values())):
        return [side.upper() for side in sides]
    return [os.path.abspath(names[side]) for side in sides]


class Mail(NamedTuple):
    """What a mail says beside the changes."""

    state: State
    warnings: Sequence[str]
    notes: Sequence[str]


def text_of_changes(mail: Mail, judged: Judged) -> list[str]:
    """The lines of a mail about changes."""
    end = ["", *end_lines(mail)]
    return [*brief(judged, MAIL, note_lines(mail.warnings), MAX_LINES - len(end)), *end]


def end_lines(mail: Mail) -> list[str]:
    """The two commands, and the notes."""
    title = "All changes with their values, as a page (with the options of this job):"
    words = ["aide-compare", "page", *names_of(mail.state, "old", "new")]
    lines = [title, *command_lines(words, "> changes.html"), *accept_lines(mail.state)]
    notes = note_lines(mail.notes)
    if notes:
        lines.append("")
    return lines + notes


def text_of_unjudged(mail: Mail, comparison: Comparison) -> list[str]:
    """The lines of a mail about changes that nobody has judged."""
    head = note_lines(mail.warnings)
    end = ["", *end_lines(mail)]
    return [*head, *unjudged_lines(comparison, MAX_LINES - len(head) - len(end)), *end]
