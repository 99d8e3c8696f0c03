"""The results of the last nights: a file beside the state file, with a line for each, which is a
state without names."""
from __future__ import annotations

import os
from contextlib import suppress

from aide_compare.base.ending import Fault
from aide_compare.base.files import read_file
from aide_compare.base.replacement import replace
from aide_compare.compare.state import State, parse_state

MAX_NIGHTS = 400
MAX_BYTES = 1 << 20
MAX_ERROR = 200
# A comparison of the same databases so many seconds later, such as one by hand, is of no other
# night.
SAME_NIGHT = 12 * 3600


def history_path(state_path: str) -> str:
    """As in DIRECTORY/history.jsonl for DIRECTORY/state, and NAME.history.jsonl for all others."""
    directory, name = os.path.split(state_path)
    history = "history.jsonl"
    if name != "state":
        history = f"{name}.{history}"
    return os.path.join(directory, history)


def nights_of(state_path: str) -> list[State]:
    """The nights that are known, the last one at the end. What is no line of a night is passed
    over."""
    nights = []
    with suppress(Fault):
        for line in read_file(history_path(state_path), MAX_BYTES, "the history ").splitlines():
            with suppress(ValueError):
                nights.append(parse_state(line))
    return nights[-MAX_NIGHTS:]


def without_names(state: State) -> State:
    """What is kept of a night: no names, and the beginning of an error."""
    return state._replace(
        old="",
        new="",
        trusted_old="",
        trusted_new="",
        skipped_old=[],
        skipped_new=[],
        error=state.error[:MAX_ERROR],
    )


def is_same_night(former: State, state: State) -> bool:
    pairs = [(each.old_sha256, each.new_sha256) for each in (former, state)]
    has_compared = max(former.status, state.status) <= 7
    return has_compared and pairs[0] == pairs[1] and state.time - former.time < SAME_NIGHT


def keep_night(state_path: str, state: State) -> None:
    """Puts one more night into the history."""
    nights = nights_of(state_path)
    if nights and is_same_night(nights[-1], state):
        nights.pop()
    nights = [*nights, without_names(state)][-MAX_NIGHTS:]
    text = b"".join(night.text() for night in nights)
    replace(history_path(state_path), text, what="the history", makes_directory=False)
