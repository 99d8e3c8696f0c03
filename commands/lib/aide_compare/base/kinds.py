"""The kinds of values on a command line: each takes a text, and gives the value or says what it
needs."""
from __future__ import annotations

import argparse
import os
import re
from collections.abc import Callable
from typing import TYPE_CHECKING, NamedTuple, TypeVar

from aide_compare.base.escapes import shown
from aide_compare.base.words import SEVERITIES

if TYPE_CHECKING:
    from aide_compare.base.paths import Pattern

# Seconds and bytes.
UNITS = {"": 1, "s": 1, "m": 60, "h": 3600, "d": 86400, "k": 1 << 10, "M": 1 << 20, "G": 1 << 30}
MAX_SECONDS = 30 * 86400
MAX_BYTES = 1 << 62

Value = TypeVar("Value")


def refusal(needs: str, text: str) -> argparse.ArgumentTypeError:
    """The error for a text that is no such value, which is named."""
    name = shown(text, 100) or "''"
    return argparse.ArgumentTypeError(f"needs {needs}: {name}")


def matching(
    pattern: str | re.Pattern[str], needs: str, convert: Callable[[str], Value]
) -> Callable[[str], Value]:
    """The kind of the texts that a regular expression describes; `needs` says so to people."""

    def kind(text: str) -> Value:
        if not re.fullmatch(pattern, text):
            raise refusal(needs, text)
        return convert(text)

    return kind


def number_in_units(text: str) -> int:
    """The number that digits and a unit mean."""
    digits = text.rstrip("".join(UNITS))
    return int(digits) * UNITS[text[len(digits) :]]


_seconds = matching("[0-9]{1,9}[smhd]?", "a number and s, m, h or d, as in 26h", number_in_units)


def duration(text: str) -> int:
    """A time with its unit, in seconds."""
    seconds = _seconds(text)
    if seconds > MAX_SECONDS:
        raise argparse.ArgumentTypeError(f"more than 30 days: {shown(text, 100)}")
    return seconds


def some_time(text: str) -> int:
    """The same of at least a second."""
    seconds = duration(text)
    if not seconds:
        raise refusal("at least 1s", text)
    return seconds


def pattern(text: str) -> Pattern:
    """A pattern of paths."""
    from aide_compare.base.paths import Pattern

    try:
        return Pattern(os.fsencode(text))
    except ValueError as error:
        raise argparse.ArgumentTypeError(str(error))


def _bounded_size(text: str) -> int:
    return min(number_in_units(text), MAX_BYTES)


some_text = matching("(?s).+", "a value that is not empty", str)
# A byte that is not UTF-8 is one of these letters. The proved program has no words for it.
text_in_utf8 = matching("[^\udc80-\udcff]*", "a text in UTF-8", str)
file_path = matching("(?s)(?!-$).+", "a file", str)
address = matching(r"(?!-)[ -~]+", "an address", str)
size = matching(
    "[0-9]{1,15}[kMG]?", "a number of bytes, as in 4000000, 500k, 20M or 1G", _bounded_size
)
# As systemd.unit(5) has it.
UNIT_NAME = r"[A-Za-z0-9:_.\\@-]{1,255}"
unit_name = matching(UNIT_NAME, "the name of a unit", str)


digest_digits = matching(
    "[0-9a-fA-F]{16,64}", "a SHA-256, as 16 to 64 hexadecimal digits", str.lower
)


class AlarmLimit(NamedTuple):
    """From where on a check is WARNING or CRITICAL: a number of changes that are not silent, or, if
    that is 0, the least severity of one."""

    changes: int
    severity: str


def alarm_limit(text: str) -> AlarmLimit:
    """A severity, or a number from 1 on."""
    if text in SEVERITIES:
        return AlarmLimit(0, text)
    if text.isascii() and text.isdigit() and len(text) <= 9 and int(text):
        return AlarmLimit(int(text), "")
    raise refusal("high, medium or low, or a number from 1", text)
