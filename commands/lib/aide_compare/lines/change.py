"""A change that a line says, as a value, with its standing, and the counts of all standings.

Only a proved line makes a change silent, by its member `same_as` or `left_out`. What a package's
records on the host say makes it `recorded`, which shortens what people read and silences nothing.
"""
from __future__ import annotations

import json
import re
from collections.abc import Container
from enum import Enum
from typing import Any, NamedTuple, Union

from aide_compare.base.paths import key_of_path
from aide_compare.base.words import KINDS, SEVERITIES, SIDES, counted
from aide_compare.lines.attributes import NUMBERS
from aide_compare.lines.rights import bytes_of, same_rights

Value = Union[int, str, bytes, None]
VALUE_TYPES = frozenset((int, str, type(None)))  # As a line has them.
DECODE = json.JSONDecoder().raw_decode
# What a member of another type, or one that is missing, raises.
ODD = (ValueError, KeyError, TypeError, AttributeError)
# The exact values of one side by the labels of attributes.
Values = dict[str, Value]
# What people read in place of the values of one side, by the same labels.
Texts = dict[str, str]
# The object of a line.
Fields = dict[str, Any]


class Standing(Enum):
    """How a change stands. The words are those of every text, page and line."""

    SAME = "same"  # The entry is as it was, but for what its host makes of it, such as times.
    TRUSTED = "trusted"  # A machine, or a signed archive, that is trusted changed in the same way.
    LEFT_OUT = "left out"  # A line of the administrator's list names it, and nothing forbids it.
    RECORDED = "recorded"  # A package's records on the host have this content, unsigned.
    OPEN = "open"  # All else.

    @property
    def key(self) -> str:
        """Its name among counts."""
        return self.value.replace(" ", "_")


# What the member `same_as` of a proved line means.
STANDING_BY_PROOF = {"old": Standing.SAME, "trusted": Standing.TRUSTED}
LEFT_OUT = "left_out"  # The member of a proved line with the number of the list's line.
# What decides on what is reported: settings, the table of severities, AIDE's configuration, its
# units, the units and cron jobs of the comparison. No trusted pair accounts for a change there,
# whatever happened on its machine.
WATCHERS = (
    rb"(?s)/etc/aide-compare(?:/.*)?|/etc/aide(?:/.*)?|/etc/aide\.conf|/etc/default/aide"
    rb"|/etc/cron\.(?:daily/zz-aide-compare|d/aide-compare-fleet)"
    rb"|/usr/(?:.*/)?share/aide-compare/.*"
    rb"|/(?:etc|run|lib|usr/lib|usr/local/lib)/systemd/(?:.*/)?"
    rb"(?:(?:aide-|dailyaidecheck\.).*|(?:service|timer)\.d(?:/.*)?)"
)


def values_of(side: Fields, hidden: Container[str] = ()) -> Values:
    """The exact values of a side but the hidden ones: numbers, texts, and bytes where these are not
    UTF-8."""
    values: Values = {}
    for name, value in side.items():
        if name in hidden:
            continue
        if name.endswith("_hex"):
            values[name[: -len("_hex")]] = bytes.fromhex(value)
        elif name in NUMBERS and isinstance(value, str):  # A number of more than 53 bits.
            values[name] = int(value)
        else:
            values[name] = value
    return values


class Change(NamedTuple):
    """An entry that came, went or changed. Of a changed one there are only values that people asked
    for: a line also has rights that did not differ."""

    path: bytes
    kind: str  # One of KINDS.
    type: str  # In words, such as "File"; "Entry" if it is not known.
    letters: str  # The summary string of a report.
    old: Values
    new: Values

    @property
    def sides(self) -> tuple[Values, Values]:
        return self.old, self.new


class ChangeLine(NamedTuple):
    """The line of a change, parsed once."""

    fields: Fields
    path: bytes
    key: bytes  # Of its path.
    kind: str
    account: Standing | None  # What accounts for the change; None if nothing does.
    left_out: int  # The number of the list's line that leaves it out, or 0.
    line: bytes

    @property
    def counted(self) -> tuple[str, str]:
        """Its kind and the word for what accounts for it."""
        return self.kind, self.account.value if self.account else ""

    @property
    def silent(self) -> Standing | None:
        """Its standing if it is silent."""
        if self.account is Standing.TRUSTED and re.fullmatch(WATCHERS, self.path):
            return None
        return self.account


def change_line(fields: Fields, line: bytes) -> ChangeLine:
    """The line of a change with its object; one of ODD if that says no change."""
    path = bytes_of(fields, "path")
    kind = fields["kind"]
    words = (fields.get("summary", ""), fields.get("type", ""))
    is_change = kind in KINDS and path.startswith(b"/")
    if not is_change or not all(isinstance(word, str) for word in words):
        raise ValueError("no change")
    for side in SIDES:
        if side in fields and not VALUE_TYPES.issuperset(map(type, fields[side].values())):
            raise ValueError("a value is a number or a text")
    account, left_out = account_of(fields)
    return ChangeLine(fields, path, key_of_path(path), kind, account, left_out, line)


def parsed(line: bytes) -> Any:
    """What a line of JSON says; a ValueError or a RecursionError if it is none."""
    text = line.decode()
    value, end = DECODE(text)
    if text[end:].strip():
        raise ValueError("more follows the value")
    return value


def account_of(fields: Fields) -> tuple[Standing | None, int]:
    """What accounts for the change of a proved line, None if nothing does, and the number of the
    list's line that leaves it out, or 0. A ValueError for what is no number, or beside another
    account."""
    if LEFT_OUT in fields:
        line = fields[LEFT_OUT]
        if "same_as" in fields or type(line) is not int or line <= 0:
            raise ValueError("another number of a line")
        return Standing.LEFT_OUT, line
    if "same_as" in fields:
        return STANDING_BY_PROOF[fields["same_as"]], 0
    return None, 0


def change_of(fields: Fields) -> Change:
    """The change that the object of a line says, of which a ChangeLine was made."""
    hidden = same_rights(fields)
    return Change(
        path=bytes_of(fields, "path"),
        kind=fields["kind"],
        type=fields.get("type", "Entry"),
        letters=fields.get("summary", ""),
        old=values_of(fields.get("old", {}), hidden),
        new=values_of(fields.get("new", {}), hidden),
    )


class Counts(NamedTuple):
    """How many changes have which standing, and of those that are not silent, which severity."""

    same: int = 0
    trusted: int = 0
    recorded: int = 0
    open: int = 0
    open_high: int = 0
    open_medium: int = 0
    open_low: int = 0
    recorded_high: int = 0
    recorded_medium: int = 0
    recorded_low: int = 0
    left_out: int = 0
    told_status: int = 0  # The sum of 1 added, 2 removed and 4 changed, of those to read.

    @property
    def silent(self) -> int:
        return self.same + self.trusted + self.left_out

    @property
    def to_read(self) -> int:
        """How many changes somebody has to read."""
        return self.recorded + self.open

    @property
    def total(self) -> int:
        return self.silent + self.to_read

    def of_severity(self, severity: str) -> int:
        """How many changes that are not silent have this severity."""
        return self.of(Standing.OPEN, severity) + self.of(Standing.RECORDED, severity)

    def of(self, standing: Standing, severity: str = "") -> int:
        """How many changes have this standing, and this severity if one is given."""
        name = standing.key
        if severity:
            name += f"_{severity}"
        return int(getattr(self, name))

    def fits(self, changes: int) -> bool:
        """Whether these can be the counts of so many changes."""
        for standing in (Standing.OPEN, Standing.RECORDED):
            by_severity = sum(self.of(standing, severity) for severity in SEVERITIES)
            if by_severity != self.of(standing):
                return False
        has_status = bool(self.told_status) == bool(self.to_read) and self.told_status <= 7
        return has_status and min(self) >= 0 and self.total == changes

    def words(self) -> str:
        """As in "3 open (1 high), 41 recorded of 512 changes"."""
        changes = counted(self.total, "change")
        parts = map(self._part, (Standing.OPEN, Standing.RECORDED))
        text = ", ".join(filter(None, parts))
        if text:
            return f"{text} of {changes}"
        return f"{changes}, all silent"

    def _part(self, standing: Standing) -> str:
        """As in "3 open (1 high)"; "" if no change has this standing."""
        count = self.of(standing)
        if not count:
            return ""
        high = self.of(standing, SEVERITIES[0])
        if high:
            return f"{count} {standing.value} ({high} high)"
        return f"{count} {standing.value}"

    def left_out_words(self) -> str:
        """As in "left out: 3 of 22 changes"."""
        return f"left out: {self.left_out} of {counted(self.total, 'change')}"

    def numbers(self) -> dict[str, int]:
        """Those of all standings and severities, by their words."""
        standings = {standing.key: self.of(standing) for standing in reversed(Standing)}
        return {**standings, **{word: self.of_severity(word) for word in SEVERITIES}}
