"""How much a change matters, by its line alone, and whether packages' records could say something
of it."""
from __future__ import annotations

import re
from typing import NamedTuple

from aide_compare.base.database import SET_ID
from aide_compare.base.paths import SLASH
from aide_compare.changes.severity import TestResults, has_same_rights, results_of
from aide_compare.lines.change import ChangeLine, Fields
from aide_compare.lines.reader import HEX
from aide_compare.lines.rights import PLACES, ROOT, Rights, Side, owner_of_change, rights_of

MAX_NUMBER = (1 << 63) - 1
LINKS = "Linkcount"
# The members of a side that say its rights. Types and numbers are never in base 16.
RIGHTS_MEMBERS = ["Type", *PLACES, *(name + HEX for name in ("ACL", "XAttrs", "SELinux", "Caps"))]
# What is remembered has a bound.
MAX_KNOWN = 1 << 9
MAX_LINE = 1 << 11
UNKNOWN = -1
OTHERS = 2  # The group of owners who are neither root nor a service.
FIRST_USER = 1000  # The first number of a user who is no service, as in login.defs(5).
# The summary strings of a change of a content, or of where a link points: of those with a letter
# of no difference in all slots but these.
CONTENT = r"[^!][. ]..[. ]{3}....[. ].[. ]{5}"
TARGET = r"[^!]...[. ]{3}....[. ]{7}"


class Weight(NamedTuple):
    """What a line says of how much its change matters: the same for all lines with these rights."""

    results: TestResults
    owners: int  # The group of its owner.
    user: int  # The number of the user who may have many such changes.
    # What records could say of the entry: its "content", or the "target" of a link; or nothing.
    recordable: str
    has_other_links: bool  # A directory that has another number of links than before.


def directory_of(key: bytes) -> bytes:
    """The key of the directory in which an entry is, by the key of its path; none for the root."""
    above = key.rpartition(SLASH)[0]
    if above or key == SLASH:
        return above
    return SLASH


def group_of_owner(owner: int | None) -> int:
    """0 for root and for an owner that is not known, 1 for a service, 2 for all others."""
    if owner is None or owner == ROOT:
        return 0
    if owner < FIRST_USER:
        return 1
    return OTHERS


def user_number(owner: int | None) -> int:
    """The number of a user, as SQLite has numbers; UNKNOWN if it was not measured."""
    if owner is None:
        return UNKNOWN
    return min(owner, MAX_NUMBER)


def may_be_content(old: Side, new: Rights) -> bool:
    """Whether records could say something of an entry with these rights: a new one is root's alone,
    and gives nobody a right; all others have the rights that they had."""
    if old is None:
        return new.is_plain and (new.is_directory or not new.most & SET_ID)
    return has_same_rights(old, new)


def weight_of(fields: Fields) -> Weight:
    """What is known by the object of a line."""
    old, new = rights_of(fields)
    owner = owner_of_change(old, new)
    recordable = ""
    if new is not None and may_be_content(old, new) and is_content(fields, new.is_link):
        recordable = "target" if new.is_link else "content"
    other_links = fields["kind"] == "changed" and LINKS in fields["new"]
    has_other_links = other_links and is_of_directory(fields)
    return Weight(
        results_of(old, new), group_of_owner(owner), user_number(owner), recordable, has_other_links
    )


class Weights:
    """What is known by lines, remembered by the members that it depends on."""

    def __init__(self) -> None:
        self._known: dict[object, Weight] = {}

    def of(self, change: ChangeLine) -> Weight:
        fields = change.fields
        old = fields.get("old")
        new = fields.get("new")
        key = (
            *(fields["kind"], fields.get("summary"), fields.get("type")),
            None if old is None else tuple(map(old.get, RIGHTS_MEMBERS)),
            None if new is None else tuple(map(new.get, RIGHTS_MEMBERS)),
            old is not None and new is not None and (old.keys() == new.keys(), LINKS in new),
        )
        known = self._known.get(key)
        if known is None:
            known = weight_of(fields)
            if len(self._known) < MAX_KNOWN and len(change.line) <= MAX_LINE:
                self._known[key] = known
        return known


def is_of_directory(fields: Fields) -> bool:
    """Whether a line is that of a directory."""
    return bool(fields.get("type") == "Directory")


def is_content(fields: Fields, is_link: bool) -> bool:
    """Whether only a content differs, or the target of a link, and nothing is on one side alone. Of
    an entry that came that is all."""
    if fields["kind"] != "changed":
        return True
    form = CONTENT
    if is_link:
        form = TARGET
    is_one = re.fullmatch(form, fields["summary"])
    return bool(is_one) and fields["old"].keys() == fields["new"].keys()
