"""The result of a run, with the counts of all standings, and the state file that keeps it all: one
object of JSON, which `aide-compare status --format json` prints."""
from __future__ import annotations

import json
import re
import time
from typing import Any, NamedTuple

from aide_compare.base.ending import DeviceFault, fault_of
from aide_compare.base.escapes import guarded, shown
from aide_compare.base.files import read_file
from aide_compare.base.words import date_of, status_of_counts
from aide_compare.lines.change import Counts

STATE_FORMAT = 3
MAX_STATE_BYTES = 65536
MAX_NAMES = 3
MAX_ERROR = 5000
# The state of the daily run, and how much the clocks of two machines that share a file may differ.
DAILY = "/var/lib/aide-compare/daily/state"
AHEAD = 300
MAX_NUMBER = 1 << 63
DIGEST = "(?:[0-9a-f]{64})?"


class State(NamedTuple):
    """What a run found. Names and the error line are texts that may be shown: `shown` and `guarded`
    have been over them."""

    status: int
    time: int  # When it ended.
    added: int | None = None  # None, as of the next two, if there are no counts.
    removed: int | None = None
    changed: int | None = None
    old_sha256: str = ""
    new_sha256: str = ""
    old: str = ""
    new: str = ""
    old_written: int | None = None  # None if it is unknown.
    new_written: int | None = None
    error: str = ""  # The first error line.
    trusted_old: str = ""
    trusted_old_sha256: str = ""
    trusted_new: str = ""
    trusted_new_sha256: str = ""
    skipped_old: list[str] = []  # The columns that were not compared.
    skipped_new: list[str] = []
    standings: Counts | None = None  # None if nobody has judged the changes.

    @property
    def counts(self) -> tuple[int, int, int] | None:
        """The three counts, or None."""
        if self.added is None or self.removed is None or self.changed is None:
            return None
        return self.added, self.removed, self.changed

    @property
    def told_status(self) -> int:
        """The status of what is not silent, which raises an alarm. Without standings, which nobody
        could find out, each change does."""
        if self.status > 7 or self.standings is None:
            return self.status
        return self.standings.told_status

    @property
    def age(self) -> int | None:
        """How many seconds ago the run ended; None if it ended minutes after now, so that one of
        the clocks is wrong."""
        age = int(time.time()) - self.time
        if age < -AHEAD:
            return None
        return max(age, 0)

    def is_older(self, limit: int) -> bool:
        """Whether the run is known to have ended more seconds ago; 0 is no limit."""
        return self.age is not None and 0 < limit < self.age

    @property
    def skipped(self) -> list[str]:
        """The columns that were not compared, each once."""
        return list(dict.fromkeys([*self.skipped_old, *self.skipped_new]))

    def text(self) -> bytes:
        """The bytes of the file."""
        values = self._asdict()
        del values["standings"]
        if self.standings:
            values.update(self.standings._asdict())
        fields = {"format": STATE_FORMAT, "date": date_of(self.time), **values}
        return json.dumps(fields).encode() + b"\n"

    def fault(self) -> str:
        """What does not fit in it; "" if it can be the state of a run."""
        if not (re.fullmatch(DIGEST, self.old_sha256) and re.fullmatch(DIGEST, self.new_sha256)):
            return "a digest of another form"
        if not 0 <= self.status <= 255 or self.time < 0:
            return "a status or a time that no run has"
        if self.counts is None:
            known = (self.added, self.removed, self.changed) != (None, None, None)
            if self.status <= 7 or known:
                return "counts that are missing"
            return ""
        if min(self.counts) < 0 or status_of_counts(self.counts) != self.status:
            return "counts that are not those of the status"
        if self.standings and not self.standings.fits(sum(self.counts)):
            return "counts of standings that are not those of the changes"
        return ""


def failed_state(error: BaseException) -> State:
    """The State of a run that has ended before any comparison was known."""
    fault = fault_of(error)
    return State(fault.status, int(time.time()), error=f"aide-compare: {fault.text}"[:MAX_ERROR])


def not_compared(names: list[str]) -> str:
    """As in "the column fstype is not compared", with the first names if there are many."""
    if len(names) == 1:
        return f"the column {names[0]} is not compared"
    listed = ", ".join(names[:MAX_NAMES])
    if len(names) > MAX_NAMES:
        listed += f" and {len(names) - MAX_NAMES} more"
    return f"the columns {listed} are not compared"


def _checked(key: str, value: object) -> object:
    """A value of a state file; a ValueError if it is of another type than this key has: that of its
    default, and otherwise a number or null."""
    default = State._field_defaults.get(key)
    if isinstance(default, list):
        if isinstance(value, list) and all(isinstance(name, str) for name in value):
            return [guarded(name) for name in value]
    elif isinstance(default, str):
        if isinstance(value, str):
            return guarded(value)
    elif value is None or (type(value) is int and abs(value) <= MAX_NUMBER):
        return value
    raise ValueError(f"another value of {key}")


def _state_of(fields: dict[str, Any]) -> State:
    """The State that an object says. What its keys lack is a TypeError or a LookupError."""
    if fields["format"] != STATE_FORMAT:
        raise ValueError("another format")
    keys = (*State._fields[:-1], *Counts._fields)
    values: dict[str, Any] = {key: _checked(key, fields[key]) for key in keys if key in fields}
    counts = [values.pop(key) for key in Counts._fields if key in values]
    if counts:
        values["standings"] = Counts._make(counts)
    state = State(**values)
    fault = state.fault()
    if fault:
        raise ValueError(f"{fault}, so somebody has changed it")
    return state


def parse_state(data: bytes) -> State:
    """The State that the bytes of a file say; a ValueError if they are no state."""
    try:
        return _state_of(json.loads(data))
    except (TypeError, LookupError, RecursionError):
        raise ValueError("no state") from None


def read_state(path: str) -> State:
    """Reads a state file; a Fault if there is none, or if it is none."""
    data = read_file(path, MAX_STATE_BYTES, "the state file ")
    try:
        return parse_state(data)
    except ValueError:
        raise DeviceFault(f"{shown(path)} is no state file of aide-compare") from None
