"""How two entries and two databases differ, and which changes are reported and shown."""
from __future__ import annotations

from typing import NamedTuple

from .attributes import ATTRIBUTES, NAMES
from .configuration import LEVELS, Settings
from .database import Entries, Entry, order_of
from .fields import FILE_TYPES

SLOTS = "YlZbpugamcinHAXSEC"


class Change(NamedTuple):
    """What two databases have at a path, None for no entry."""

    path: bytes
    old: Entry | None
    new: Entry | None


def changed_in(old: Entry, new: Entry) -> set[str]:
    return {name for name in NAMES if name in old and name in new and old[name] != new[name]}


def added_in(old: Entry, new: Entry) -> set[str]:
    return {name for name in NAMES if name in new and name not in old}


def reported(old: Entry, new: Entry, settings: Settings) -> set[str]:
    """The attributes by which an entry counts as changed."""
    changed: set[str] = changed_in(old, new) - settings["report_ignore_changed_attrs"]
    added: set[str] = added_in(old, new) - settings["report_ignore_added_attrs"]
    removed: set[str] = added_in(new, old) - settings["report_ignore_removed_attrs"]
    return changed | added | removed


def is_from(level: str, settings: Settings) -> bool:
    """Whether the report has what comes in at a level."""
    return LEVELS.index(settings["report_level"]) >= LEVELS.index(level)


def kind_of(change: Change, settings: Settings) -> str | None:
    """Whether a path was added, removed, is changed, or none of these."""
    if change.old is None or change.new is None:
        return "added" if change.old is None else "removed"
    return "changed" if reported(change.old, change.new, settings) else None


def shown(change: Change, settings: Settings) -> set[str]:
    """The attributes of an entry that its details show."""
    _, old, new = change
    if old is None or new is None:
        return set(new or old or {}) if is_from("added_removed_entries", settings) else set()
    if kind_of(change, settings) is None or not is_from("changed_attributes", settings):
        return set()
    forced = {name for name in settings["report_force_attrs"] if name in old or name in new}
    if is_from("added_removed_attributes", settings):
        return reported(old, new, settings) | forced
    changed: set[str] = changed_in(old, new) - settings["report_ignore_changed_attrs"]
    return changed | forced


def compared(old: Entries, new: Entries) -> list[Change]:
    """What both databases have at each path of either, in path order."""
    return [
        Change(path, old.get(path), new.get(path))
        for path in sorted(old.keys() | new.keys(), key=order_of)
    ]


def type_of(change: Change) -> int | None:
    """The type of an entry, the new one's first; None where it has none."""
    for entry in (change.new, change.old):
        if entry is not None and "ftype" in entry:
            return int(entry["ftype"]) >> 12
    return None


def names_of_type(change: Change) -> tuple[str, str]:
    """The letter and the title of the type of an entry."""
    return FILE_TYPES.get(type_of(change) or 0, ("?", "Entry"))


def letter_of(change: Change) -> str:
    return names_of_type(change)[0]


def title_of(change: Change) -> str:
    return names_of_type(change)[1]


def sign_of(slot: str, old: Entry, new: Entry, settings: Settings) -> str:
    """The letter of a slot of a changed entry: the first case for an attribute there."""
    here = {attribute.name for attribute in ATTRIBUTES if attribute.slot == slot}
    changed, added, removed = (
        names & here for names in (changed_in(old, new), added_in(old, new), added_in(new, old))
    )
    if changed - settings["report_ignore_changed_attrs"]:
        return slot if slot != "Z" else "<" if new["s"] < old["s"] else ">"
    if added - settings["report_ignore_added_attrs"]:
        return "+"
    if removed - settings["report_ignore_removed_attrs"]:
        return "-"
    if changed or added or removed:
        return ":"
    if here & old.keys() & new.keys():
        return "=" if slot == "Z" else "."
    return " "


def summary_of(change: Change, settings: Settings) -> str:
    """The eighteen letters of an entry."""
    if change.old is None or change.new is None:
        return letter_of(change) + 17 * ("+" if change.old is None else "-")
    first = "!" if "ftype" in changed_in(change.old, change.new) else letter_of(change)
    return first + "".join(sign_of(slot, change.old, change.new, settings) for slot in SLOTS[1:])
