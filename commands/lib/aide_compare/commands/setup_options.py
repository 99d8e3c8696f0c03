"""The administrator's file of options, as setup writes it."""
from __future__ import annotations

import os
import re
from collections.abc import Sequence
from contextlib import suppress

from aide_compare.base.ending import DeviceFault, Fault
from aide_compare.base.escapes import shown
from aide_compare.base.files import read_file
from aide_compare.base.options import TO
from aide_compare.base.parser import DEFAULTS_LINE
from aide_compare.base.replacement import replace
from aide_compare.commands.setup_machine import PATHS

DAILY = "daily"
FIRST_LINES = """\
# Options of aide-compare, aide-compare mail and check_aide_compare, one a line. See
# aide-compare-setup(8).
--weekly Mon
"""
MAX_OPTIONS_BYTES = 1 << 22


def text_there(path: str) -> str:
    """The text of a file; nothing if it cannot be read. Its last line has an end."""
    with suppress(Fault, OSError):
        text = os.fsdecode(read_file(path, MAX_OPTIONS_BYTES))
        if text.endswith("\n"):
            return text
        return f"{text}\n"
    return ""


def options_there() -> dict[str, str]:
    """The options of each day, which an administrator may have changed."""
    found = (
        re.fullmatch(DEFAULTS_LINE, line.strip()) for line in text_there(PATHS.defaults).split("\n")
    )
    return {match.group(1): match.group(2) or "" for match in found if match}


def missing_lines(needed: Sequence[str]) -> list[str]:
    """Those of the lines that the job of each day needs that no line of the file mentions. One that
    an administrator has made a comment stays one."""
    there = text_there(PATHS.defaults)
    return [
        line for line in needed if not re.search(rf"(?m)^[ \t#]*{line.split()[0]}(?![a-z-])", there)
    ]


def is_told(address: str | None) -> bool:
    """Whether the file says who gets the mails, if somebody is asked for."""
    return not address or options_there().get(TO.name) == address


def has_options(address: str | None, needed: Sequence[str]) -> bool:
    """Whether nothing is missing, and the mails go to the address that is asked for."""
    return os.path.lexists(PATHS.defaults) and is_told(address) and not missing_lines(needed)


def write_options(address: str | None, needed: Sequence[str]) -> None:
    """Writes the file as it is at first, or adds what it lacks of the job of each day."""
    lines = missing_lines(needed)
    if os.path.lexists(PATHS.defaults):
        if not is_told(address):
            why = f"{PATHS.defaults} stays as it is; write there: {TO.name} {shown(address or '')}"
            raise DeviceFault(why)
        text = text_there(PATHS.defaults)
        if not text:
            raise DeviceFault(f"{PATHS.defaults} cannot be read, so it stays as it is")
    else:
        text = FIRST_LINES
        if address:
            lines.append(f"{TO.name} {address}")
    text += "".join(f"{line}\n" for line in lines)
    replace(PATHS.defaults, text.encode("utf-8", "surrogateescape"))
