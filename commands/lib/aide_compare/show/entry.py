"""What has changed of an entry, in the words of one line."""
from __future__ import annotations

import re
import stat
from collections.abc import Collection

from aide_compare.base.files import file_kind
from aide_compare.base.words import date_of, minute_of
from aide_compare.lines.attributes import CONTENT, STRENGTH, word_of
from aide_compare.lines.change import Change, Values
from aide_compare.lines.readable import TYPES, kinds_of
from aide_compare.lines.rights import ROOT

TIMES_IN_ORDER = ("Mtime", "Ctime", "Atime")
# What is named of an entry with its value of before and of now; the types need no word.
PAIRS = ("Type", "Perm", "UID", "GID", "Size", "Linkcount")
OTHERS = ("Lname", "ACL", "XAttrs", "SELinux", "E2FSAttrs", "Caps")
# What is named only if nothing else has changed.
# The summary of a link whose target neither side has.
UNKNOWN_TARGET = re.compile("l ")
ALONE = {"Inode": "another inode", "Bcount": "blocks"}


def _type_word(kind: str | None) -> str:
    """As in "directory"; "entry" if the type is not known."""
    if kind not in TYPES:
        return "entry"
    return file_kind(TYPES[kind]).partition(" ")[2]


def _value(values: Values, label: str, kind: str | None) -> str:
    """A value of an entry of this type as people read it: the mode as ls(1) prints it, such as
    "-rwsr-xr-x"."""
    if label == "Type":
        return _type_word(kind)
    value = values.get(label)
    if value is None:
        return "?"
    if label == "Perm":
        return stat.filemode(TYPES.get(kind or "", 0) | int(str(value), 8))
    if value == ROOT and label in ("UID", "GID"):
        return "root"
    return str(value)


def _seconds(values: Values, label: str) -> int | None:
    """A time of an entry; None if it has none."""
    seconds = values.get(label)
    return seconds if isinstance(seconds, int) else None


def _when(old: Values, new: Values) -> list[str]:
    """When an entry came or changed. The time of its inode comes first, since anybody can set the
    other one back."""
    for label in ("Ctime", "Mtime"):
        seconds = _seconds(new, label)
        if seconds is not None and _seconds(old, label) != seconds:
            return [minute_of(seconds)]
    return []


def _side_words(values: Values, kind: str) -> list[str]:
    """The words for an entry that came or went, as "-rwsr-xr-x root:root 1265648 bytes", without
    what was not measured. A program may be of severity high for its capabilities alone."""
    words = []
    if "Perm" in values:
        words.append(_value(values, "Perm", kind))
    if "UID" in values or "GID" in values:
        words.append(f"{_value(values, 'UID', kind)}:{_value(values, 'GID', kind)}")
    if kind == "File" and "Size" in values:
        words.append(f"{_value(values, 'Size', kind)} bytes")
    caps = [word_of("Caps")] if values.get("Caps") else []
    return [" ".join(words), *caps]


def _time_words(old: Values, new: Values, label: str) -> str:
    """As in "mtime 2026-11-24T06:00:00Z -> 2026-11-25T06:00:00Z"."""
    dates = []
    for values in (old, new):
        seconds = _seconds(values, label)
        dates.append("none" if seconds is None else date_of(seconds))
    return f"{label.lower()} {dates[0]} -> {dates[1]}"


def _changed_words(change: Change, unknown: Collection[str], member: str) -> str:
    """As in "content, mode -rwxr-xr-x -> -rwsr-xr-x, 2026-11-25 06:00 UTC"."""
    old, new = change.sides
    old_kind, new_kind = kinds_of(change)
    differ = {*old, *new, *unknown}
    words = []
    if not differ.isdisjoint(STRENGTH):
        words.append(CONTENT)
    for label in PAIRS:
        if label in unknown:
            words.append(word_of(label))
        elif label in differ:
            pair = f"{_value(old, label, old_kind)} -> {_value(new, label, new_kind)}"
            words.append(pair if label == "Type" else f"{word_of(label)} {pair}")
    words += [word_of(label) for label in OTHERS if label in differ]
    if not words:
        words = [word for label, word in ALONE.items() if label in differ][:1]
        if words and UNKNOWN_TARGET.match(change.letters):
            words.append("the rule records no target")
    if words:
        words += filter(None, [member])
        return ", ".join(words + _when(old, new))
    for label in TIMES_IN_ORDER:  # Only the first one that differs.
        if label in unknown:
            return word_of(label)
        if label in differ:
            return _time_words(old, new, label)
    return ""


def entry_words(change: Change, unknown: Collection[str] = (), member: str = "") -> str:
    """The words for an entry, by its line. `unknown` are attributes that differ too, and whose
    values are not known; `member` says what came into a directory, or went."""
    if change.kind == "changed":
        return _changed_words(change, unknown, member)
    if change.kind == "removed":
        words = _side_words(change.old, change.type)
    else:
        words = _side_words(change.new, change.type) + _when({}, change.new)
    return ", ".join(word for word in words if word)
