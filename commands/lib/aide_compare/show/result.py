"""The result of a comparison in words, as its state file has it."""
from __future__ import annotations

from collections.abc import Iterable, Iterator

from aide_compare.base.escapes import guarded
from aide_compare.base.options import MAX_RESULT_AGE
from aide_compare.base.words import SEVERITIES, age_in_words, minute_of, words_of_kinds
from aide_compare.compare.state import State, not_compared


def result_text(state: State) -> str:
    """What a comparison found, in words."""
    if state.status > 7:
        return f"failure, status {state.status}: {state.error}"
    text = "no difference"
    if state.status:
        text = words_of_kinds((state.added, state.removed, state.changed))
        if state.standings:
            text = f"{state.standings.words()}: {text}"
            if state.standings.left_out:
                text += f"; {state.standings.left_out_words()}"
    if state.skipped:
        text += f"; {not_compared(state.skipped)}"
    return text + late_text(state)


def late_text(state: State) -> str:
    """As in "; the new database was 29 hours old"; "" unless AIDE has missed a night."""
    age = state.time - (state.new_written or state.time)
    if age <= MAX_RESULT_AGE:
        return ""
    return f"; the new database was {age_in_words(age)} old"


def result_numbers(state: State) -> str:
    """What a comparison found, as numbers for graphs, each with a blank behind it; "" if nothing
    was compared. As in "added=1 removed=0 changed=2 open=3 recorded=0 left_out=0 trusted=0 same=0
    high=1 medium=2 low=0 "."""
    if state.status > 7:
        return ""
    text = f"added={state.added} removed={state.removed} changed={state.changed} "
    if state.standings:
        for word, number in state.standings.numbers().items():
            text += f"{word}={number} "
    return text


def time_text(state: State, max_age: int) -> str:
    """When the last comparison was, as in "2026-11-25 06:25 UTC, 3 hours ago", and whether that is
    too long."""
    minute = minute_of(state.time)
    if state.age is None:
        return f"{minute}, which is in the future: is a clock wrong?"
    text = f"{minute}, {age_in_words(state.age)} ago"
    if state.is_older(max_age):
        text += f": there should have been one in the last {age_in_words(max_age)}"
    return text


COLUMNS = (*SEVERITIES, "open", "recorded", "left_out", "trusted", "same")


def table_of(nights: Iterable[State]) -> Iterator[str]:
    """A line for each night under the names of the counts, or with what it has failed by."""
    names = [name.replace("_", " ") for name in COLUMNS]
    yield "  ".join(["night".ljust(len("2026-11-25 06:25 UTC")), "status", *names])
    for night in nights:
        begin = f"{minute_of(night.time)}  {night.told_status:>6}"
        if night.status > 7:
            yield guarded(f"{begin}  {night.error}")
            continue
        numbers = {}
        if night.standings:
            numbers = night.standings.numbers()
        counts = [str(numbers.get(name, "?")) for name in COLUMNS]
        yield "  ".join([begin, *(f"{count:>{len(name)}}" for count, name in zip(counts, names))])
