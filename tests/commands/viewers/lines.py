"""Calls of the commands that show changes in other forms, and of their modules."""
from __future__ import annotations

import json
import os
import subprocess
from typing import Any

from tests.lib.programs import lines_program_of

from aide_compare.base.files import in_memory
from aide_compare.base.words import SEVERITIES
from aide_compare.changes.table import Marks
from aide_compare.compare.comparison import Comparison, ComparisonInput, Lines
from aide_compare.lines.reader import NOTHING_COUNTED
from aide_compare.show.json_lines import added_lines
from aide_compare.show.page import MAX_PAGE, PageRows, whole_page

Fields = dict[str, Any]
# A comparison that knows nothing beside its lines.
NAMELESS = Comparison(ComparisonInput(old="", new=""))


def proved_lines(program: bytes, configuration: str) -> bytes:
    """The lines that aide_lines, which is beside a program, writes."""
    words = [lines_program_of(os.fsdecode(program)), "-E", "-c", "/dev/null", "-A", configuration]
    return subprocess.run(words, check=False, capture_output=True).stdout


def objects_of(text: bytes) -> list[Fields]:
    """The objects of proved lines, as aide-compare json writes them, with their names."""
    NAMELESS.lines = Lines(in_memory(text), False, NOTHING_COUNTED)
    _, *lines = added_lines(NAMELESS, None)
    return [json.loads(line) for line in (text.partition(b"\n")[0], *lines)]


def changes_of(objects: list[Fields]) -> list[Fields]:
    return [fields for fields in objects if "kind" in fields]


def order_of(fields: Fields) -> tuple[str, int]:
    return fields["standing"], SEVERITIES.index(fields.get("severity", "high"))


def page_over(objects: list[Fields], limit: int = MAX_PAGE) -> bytes:
    """The page of the objects of lines, with the standings that they say."""
    rows = PageRows()
    for fields in sorted(changes_of(objects), key=order_of):
        marks = (fields.get(name, "") for name in Marks._fields)
        rows.add(fields, Marks(*marks))
    database = {"side": "Old database", "name": "/a", "time": "", "sha256": "00"}
    heading: Fields = {"title": "File changes", "outcome": "", "databases": [database]}
    heading.update(counts=[["open", 1]], remarks=[], facts=[], lists=[])
    return b"".join(whole_page("File changes", "digest", rows.chosen(limit), lambda: heading))


# The rights that a line has of both sides, by their letters in the summary string; and the letters
# that say no difference.
RIGHTS = dict(p="Perm", u="UID", g="GID", A="ACL", X="XAttrs", S="SELinux", C="Caps")
SLOTS = "YlZbpugamcinHAXSEC"
NONE = ".: "


def without_same_rights(fields: Fields) -> Fields:
    """The object of a change with the values that people read: no right that did not differ."""
    letters = fields.get("summary", "")
    if fields["kind"] != "changed" or len(letters) != len(SLOTS):
        return fields
    sides = [fields.get(side, {}) for side in ("old", "new")]
    hidden = {
        RIGHTS[slot] for slot, letter in zip(SLOTS, letters) if slot in RIGHTS and letter in NONE
    }
    if letters[0] != "!" and all("Type" in side for side in sides):
        hidden.add("Type")
    old, new = (
        {name: side[name] for name in side if name.removesuffix("_hex") not in hidden}
        for side in sides
    )
    return {**fields, "old": old, "new": new}
