"""The result of the last comparison as Nagios, Icinga and their like read it: one line, and a
status from 0 to 3."""
from __future__ import annotations

from enum import IntEnum
from typing import NamedTuple

from aide_compare.base.escapes import guarded, shown
from aide_compare.base.files import is_missing
from aide_compare.base.kinds import AlarmLimit
from aide_compare.base.words import SEVERITIES, age_in_words, date_of
from aide_compare.compare.state import State, read_state
from aide_compare.lines.change import Counts
from aide_compare.show.result import result_numbers, result_text

MAX_LINE = 300


class Level(IntEnum):
    """The statuses of a check."""

    OK = 0
    WARNING = 1
    CRITICAL = 2
    UNKNOWN = 3


class Answer(NamedTuple):
    """What the check says, with numbers for graphs."""

    level: Level
    text: str
    numbers: str = ""

    def line(self) -> str:
        # A bar begins the numbers, and a page that shows this may obey what begins with the other.
        line = guarded(self.text).replace("|", "!").replace("<", "(")
        if len(line) > MAX_LINE:
            line = f"{line[:MAX_LINE]}..."
        if self.numbers:
            line += f"|{self.numbers}"
        return f"AIDE {self.level.name}: {line}"


def is_reached(limit: AlarmLimit | None, counts: Counts, usual: int) -> bool:
    """Whether changes reach a limit; without one, whether there are any of the usual ones."""
    if limit is None:
        return usual > 0
    if limit.severity:
        severities = SEVERITIES[: SEVERITIES.index(limit.severity) + 1]
        return any(counts.of_severity(severity) for severity in severities)
    return counts.to_read >= limit.changes


def level_of(state: State, warning: AlarmLimit | None, critical: AlarmLimit | None) -> Level:
    """The level by a state that is young enough. Without a limit the standings decide."""
    counts = state.standings
    if state.status == 0:
        return Level.OK
    if state.status > 7:
        return Level.UNKNOWN
    if counts is None:
        return Level.CRITICAL
    if is_reached(critical, counts, counts.open_high):
        return Level.CRITICAL
    if is_reached(warning, counts, counts.to_read):
        return Level.WARNING
    return Level.OK


def answer_of(
    path: str, max_age: int, warning: AlarmLimit | None, critical: AlarmLimit | None
) -> Answer:
    """What the check says of a state file."""
    if is_missing(path):
        return Answer(Level.UNKNOWN, f"there is no {shown(path)}; aide-compare --state writes it")
    state = read_state(path)
    if state.age is None:
        text = f"the last comparison is in the future: {date_of(state.time)}"
        return Answer(Level.UNKNOWN, text)
    text = result_text(state)
    numbers = f"{result_numbers(state)}age={state.age}s"
    if state.is_older(max_age):
        age = f"older than {age_in_words(max_age)}: {date_of(state.time)}"
        return Answer(Level.UNKNOWN, f"the last comparison is {age}: {text}", numbers)
    return Answer(level_of(state, warning, critical), text, numbers)
