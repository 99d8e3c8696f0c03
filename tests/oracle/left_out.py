"""The line of a list that leaves out a change, by what two databases have at its path.

An entry has the attributes that `database_of` reads of it; None stands for no entry.
"""
from __future__ import annotations

from collections.abc import Mapping
from typing import NamedTuple, Optional

from . import patterns
from .database import parts_of
from .texts import lines_of

SETTINGS = b"/etc/aide-compare"
# AIDE sees no path of more than 4,095 bytes. Below a directory of a left out change it sees all: a
# slash and a name of 255 bytes still fit.
LONGEST_PATH = 4095 - 1 - 255
# The types that there are, by their bits.
FIFO, CHARACTER, DIRECTORY, BLOCK, FILE, LINK, SOCKET = 1, 2, 4, 6, 8, 10, 12
TYPES = (FIFO, CHARACTER, DIRECTORY, BLOCK, FILE, LINK, SOCKET)
SET_USER_ID, SET_GROUP_ID = 0o4000, 0o2000
ANYTHING, RUN, OTHERS_WRITE = 0o777, 0o111, 0o022

Entry = Optional[Mapping[str, object]]


class Change(NamedTuple):
    """What two databases have at a path, and whether each has the column of capabilities."""

    path: bytes
    old: Entry
    new: Entry
    old_measures: bool
    new_measures: bool


def type_of(entry: Entry) -> int:
    """The bits of a type that there is, otherwise 0."""
    bits = 0
    if entry is not None:
        bits = int(str(entry.get("ftype", 0))) >> 12
    return bits if bits in TYPES else 0


def mode_of(entry: Entry) -> int:
    return int(str(entry.get("p", 0))) if entry is not None else 0


def is_program(entry: Entry) -> bool:
    return type_of(entry) == FILE and bool(mode_of(entry) & RUN)


def is_harmless(entry: Entry, measures: bool) -> bool:
    """Whether nobody gets a right from an entry, if there is one."""
    if entry is None:
        return True
    kind = type_of(entry)
    mode = mode_of(entry)
    if not kind or "p" not in entry:
        return False
    if mode & SET_USER_ID or (mode & SET_GROUP_ID and kind != DIRECTORY):
        return False
    if "caps" in entry and kind != LINK:
        return False
    if kind in (CHARACTER, BLOCK) and (mode & ANYTHING or entry.get("u") != 0):
        return False
    return measures or not is_program(entry)


def may_others_write(entry: Entry) -> bool:
    return type_of(entry) == DIRECTORY and bool(mode_of(entry) & OTHERS_WRITE)


def knows_writers(entry: Entry) -> bool:
    return entry is not None and "u" in entry and ("g" in entry or not may_others_write(entry))


def gains_writers(old: Entry, new: Entry) -> bool:
    """Whether somebody may write a directory who could not before. Without its owner, or without
    its group if others may write it, this may be anybody."""
    if type_of(new) == DIRECTORY and not knows_writers(new):
        return True
    if old is None or new is None or type_of(old) != DIRECTORY or type_of(new) != DIRECTORY:
        return may_others_write(new)
    names = ["u"]
    if may_others_write(new):
        names += ["g", "p", "acl"]
    return any(old.get(name) != new.get(name) for name in names)


def line_of(rules: list[patterns.Rule], change: Change) -> int:
    """The line that leaves out a change, or 0."""
    path, old, new, old_measures, new_measures = change
    if old is None and new is None:
        return 0
    if path == SETTINGS or path.startswith(SETTINGS + b"/") or len(path) > LONGEST_PATH:
        return 0
    if not is_harmless(old, old_measures) or not is_harmless(new, new_measures):
        return 0
    if gains_writers(old, new):
        return 0
    return patterns.line_of(rules, path, is_program(old) or is_program(new))


def measures_of(text: bytes) -> bool:
    """Whether a database has the column of capabilities."""
    return any(b"capabilities" in columns for _, columns in parts_of(lines_of(text)).spec)
