"""Who may do what with an entry. The program writes these attributes of both sides into the line of
each change, whether they differ or not, so that a line says all that its severity depends on.

A side that lacks one of them says nothing of it: then its entry may have had no such right before,
and may have every one now.
"""
from __future__ import annotations

import base64
import re
from collections.abc import Container
from contextlib import suppress
from functools import lru_cache
from typing import Any, NamedTuple, Optional

from aide_compare.base.directories import OTHERS_WRITE
from aide_compare.base.paths import unescaped
from aide_compare.base.words import SIDES

# The attributes by their names in a configuration, and those that have a place of their own in the
# summary string by their names in a line.
RIGHTS = ("ftype", "p", "u", "g", "acl", "xattrs", "selinux", "caps")
PLACES = {"Perm": 4, "UID": 5, "GID": 6, "ACL": 13, "XAttrs": 14, "SELinux": 15, "Caps": 17}
# A letter there that says that an attribute did not differ, or that this is not asked for.
NO_DIFFERENCE = ".: "
OTHER_TYPE = "!"

ROOT = 0  # The number of root, and of its group.
ANY_BITS = 0o6777  # All but the sticky bit, which takes a right away.
CAPABILITY = b"security.capability"
DEVICES = ("Character device", "Block device")
# What says no more than a mode: two lists, of which the second one, for new files in a folder, is
# empty.
ACL = rb"POSIX,(?:0?|([^,]+)),0?"
BASE_ACL = rb"(?:(?:user|group|other)::[r-][w-][x-]\n?){3}\n?"


def is_access_list(field: bytes) -> bool:
    """Whether an access list gives a right beyond the mode."""
    match = re.fullmatch(ACL, field)
    if match is None:
        return True
    if not match[1]:
        return False
    with suppress(ValueError):
        return not re.fullmatch(BASE_ACL, base64.b64decode(match[1], validate=True))
    return True


def capability_in(xattrs: bytes) -> bytes | None:
    """The attribute that gives a file capabilities, among all extended ones: their number, and each
    name with its value."""
    parts = xattrs.split(b",")
    for name, value in zip(parts[1::2], parts[2::2]):
        if unescaped(name) == CAPABILITY:
            return value
    return None


class Rights(NamedTuple):
    """The rights of an entry on one side. None, or no type: its line does not say it."""

    type: str  # In words, such as "File".
    permissions: int | None
    user: int | None
    group: int | None
    acl: bytes | None
    xattrs: bytes | None
    selinux: bytes | None
    capabilities: bytes | None

    @property
    def is_directory(self) -> bool:
        return self.type == "Directory"

    @property
    def is_link(self) -> bool:
        return self.type == "Link"

    @property
    def is_device(self) -> bool:
        return self.type in DEVICES

    @property
    def is_known(self) -> bool:
        """Whether it is known whose the entry is, and what others may do. What has no bit in a
        database, such as an access list, is missing in a line if there is none."""
        return None not in (self.permissions, self.user, self.group)

    @property
    def least(self) -> int:
        """The bits of the mode that are set for sure."""
        return self.permissions or 0

    @property
    def most(self) -> int:
        """The bits of the mode that may be set."""
        if self.permissions is None:
            return ANY_BITS
        return self.permissions

    @property
    def owner(self) -> int | None:
        """The number of its user, None if it is not known. Nobody but root makes a device."""
        if self.user is not None and self.is_device:
            return ROOT
        return self.user

    @property
    def capability_sets(self) -> tuple[bytes | None, ...]:
        """What gives it capabilities, as AIDE writes it in two columns. Of a link AIDE reads the
        capabilities of the file that it points to."""
        if self.is_link:
            return (None, None)
        return (self.capabilities, capability_in(self.xattrs or b""))

    @property
    def has_capabilities(self) -> bool:
        return self.capability_sets != (None, None)

    @property
    def has_access_list(self) -> bool:
        """Whether an access list gives a right beyond its mode."""
        return self.acl is not None and not self.is_link and is_access_list(self.acl)

    @property
    def is_plain(self) -> bool:
        """Whether it is root's, nobody else can write it, and nothing beyond its mode gives a right
        to anybody. The mode of a link says nothing."""
        if (self.user, self.group) != (ROOT, ROOT):
            return False
        if self.is_link:
            return True
        has_more = self.has_capabilities or self.has_access_list or self.xattrs is not None
        return not has_more and not self.most & OTHERS_WRITE


# The rights of an entry on one side; None if it is not there.
Side = Optional[Rights]


# The rights of an entry on both sides.
Sides = tuple[Side, Side]
# The object of a line, or of a side in it.
Object = dict[str, Any]


def bytes_of(values: Object, name: str) -> bytes:
    """The bytes of a value that is a text, or in base 16 where it is not UTF-8."""
    if f"{name}_hex" in values:
        return bytes.fromhex(values[f"{name}_hex"])
    text: str = values[name]
    return text.encode("utf-8")


def _bytes_in(values: Object, name: str) -> bytes | None:
    """The same; None without it."""
    with suppress(KeyError):
        return bytes_of(values, name)
    return None


def _number_in(values: Object, name: str, base: int = 10) -> int | None:
    """A number, which may be a text of its digits; None without it."""
    if name not in values:
        return None
    return int(str(values[name]), base)


def _side(values: Object | None) -> Side:
    if values is None:
        return None
    return Rights(
        type=values.get("Type", ""),
        permissions=_number_in(values, "Perm", 8),
        user=_number_in(values, "UID"),
        group=_number_in(values, "GID"),
        acl=_bytes_in(values, "ACL"),
        xattrs=_bytes_in(values, "XAttrs"),
        selinux=_bytes_in(values, "SELinux"),
        capabilities=_bytes_in(values, "Caps"),
    )


def rights_of(fields: Object) -> Sides:
    """The rights that the line of a change says. Two types that have the same word, of those that
    no file has, are not the same."""
    old = _side(fields.get("old"))
    new = _side(fields.get("new"))
    if old and new and fields["summary"].startswith(OTHER_TYPE) and old.type == new.type:
        old = old._replace(type="")
    return old, new


@lru_cache(maxsize=256)
def _same_by(letters: str) -> frozenset[str]:
    """The members of a side whose rights did not differ, by the summary string."""
    names = [name for name, place in PLACES.items() if letters[place] in NO_DIFFERENCE]
    if not letters.startswith(OTHER_TYPE):
        names.append("Type")
    return frozenset(name + end for name in names for end in ("", "_hex"))


def same_rights(fields: Object) -> frozenset[str]:
    """The members of both sides in the object of a line whose rights did not differ."""
    letters = fields.get("summary", "")
    if fields.get("kind") != "changed" or len(letters) <= PLACES["Caps"]:
        return frozenset()
    same = _same_by(letters)
    if "Type" in fields.get("old", ()) and "Type" in fields.get("new", ()):
        return same
    return same - {"Type"}


def differing(fields: Object) -> Object:
    """The object of a line without the rights that did not differ."""
    same = same_rights(fields)
    sides = {side: without(fields[side], same) for side in SIDES if side in fields}
    return {**fields, **sides}


def without(values: Object, names: Container[str]) -> Object:
    """The members of a side that have other names."""
    return {name: value for name, value in values.items() if name not in names}


def owner_of_change(old: Side, new: Side) -> int | None:
    """Whose change it is: root's, if root's entry is among the two."""
    owners = [rights.owner for rights in (old, new) if rights]
    known = [owner for owner in owners if owner is not None]
    if ROOT in known:
        return ROOT
    if len(known) < len(owners):
        return None
    return min(known, default=None)
