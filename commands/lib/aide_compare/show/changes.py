"""A change as a text for people, with its values."""
from __future__ import annotations

import os
import re
from collections.abc import Collection, Iterator
from typing import TYPE_CHECKING, NamedTuple

from aide_compare.base.database import Kind, Layout
from aide_compare.base.escapes import encoded, guarded, shown
from aide_compare.base.files import BLOCK, reopened
from aide_compare.base.paths import WILD, key_of_path
from aide_compare.base.words import SIDES, date_of
from aide_compare.lines.attributes import FORMS, STRENGTH, word_of
from aide_compare.lines.change import Change, Value, change_of, parsed
from aide_compare.lines.readable import texts_of
from aide_compare.show.json_lines import marked_lines
from aide_compare.show.not_left_out import TO_READ, Reasons

if TYPE_CHECKING:
    from aide_compare.base.paths import Pattern
    from aide_compare.changes.judged import Judged
    from aide_compare.compare.comparison import Comparison
    from aide_compare.compare.unpack import Copy


ESCAPED = rb"(?s)\\(.)"  # A byte of a pattern that means itself.


def _shown(label: str, value: Value, text: str | None) -> str | None:
    """A value for people; None if there is none."""
    if text is not None:
        return guarded(text)
    if isinstance(value, int) and FORMS[label] == "time":
        return date_of(value)
    if isinstance(value, int):
        return str(value)
    if value is None:
        return None
    return shown(value)


class AttributeValues(NamedTuple):
    """An attribute of a change with both values for people, None for one that is not there."""

    label: str
    old: str | None
    new: str | None

    def line(self, kind: str) -> str:
        """Its line in a change of this kind."""
        old, new = ("none" if text is None else text for text in (self.old, self.new))
        values = {"added": new, "removed": old, "changed": f"{old} -> {new}"}
        return f"    {word_of(self.label):<10} {values[kind]}\n"


def values_in(change: Change, others: Collection[str] = ()) -> Iterator[AttributeValues]:
    """Each attribute of a change, and those that it has too, with both values for people, None for
    one that is not there. Of the digests one says as much as all, and the type is said
    already unless it changed."""
    texts = texts_of(change)
    labels = {*others, *change.old, *change.new}
    digest = next((label for label in STRENGTH if label in labels), None)
    for label in FORMS:
        if label not in labels or (label in STRENGTH and label != digest):
            continue
        if label == "Type" and change.kind != "changed":
            continue
        old = _shown(label, change.old.get(label), texts.old.get(label))
        new = _shown(label, change.new.get(label), texts.new.get(label))
        yield AttributeValues(label, old, new)


def changes_with_values(
    comparison: Comparison, judged: Judged | None, pattern: Pattern
) -> Iterator[bytes]:
    """The changes of the paths that a pattern means, each with its standing and its values."""
    is_there = False
    if judged and judged.only_counted:
        judged = None
    reasons = Reasons(comparison.request.exclusions)
    for line, marks in judged.lines() if judged else marked_lines(comparison.reader()):
        fields = parsed(line)
        change = change_of(fields)
        if pattern.matches(change.path[1:].split(b"/")):
            lines = [f"{marks.standing} {marks.severity}".rstrip() + " "]
            lines += change_lines(change)
            if marks.package:
                lines.append(f"    package    {guarded(marks.package)}\n")
            reason = reasons.of(fields) if marks.standing in TO_READ else ""
            if reason:
                lines.append(f"    {guarded(reason)}\n")
            yield encoded("".join(lines))
            is_there = True
    if not is_there:
        yield encoded(f"{why_none(comparison, pattern)}\n")


def why_none(comparison: Comparison, pattern: Pattern) -> str:
    """Why there is no change at the paths of a pattern."""
    path = re.sub(ESCAPED, rb"\1", pattern.text)
    if WILD.search(re.sub(ESCAPED, b"", pattern.text)):
        return "no change at these paths"
    name = shown(path)
    if any(has_path(comparison.copies[side], path) for side in SIDES):
        return f"no change: all that AIDE measures of {name} is as before"
    return f"neither database has {name}: AIDE has no rule for it, or it is misspelt"


def has_path(copy: Copy, path: bytes) -> bool:
    """Whether a database has an entry at a path."""
    layout = Layout()
    key = key_of_path(path)
    with open(reopened(copy.fd, os.O_RDONLY), "rb", BLOCK) as database:
        for line in database:
            if layout.kind_of(line) is Kind.ENTRY and layout.key_of(line) == key:
                return True
    return False


def change_lines(change: Change, various: Collection[str] = ()) -> Iterator[str]:
    """The lines of a change. The path stands last in its line, so that no path can look like the
    words of another one. Of many hosts `various` attributes have several old values."""
    yield f"{change.kind} {change.type}: {shown(change.path)}\n"
    for row in values_in(change, various):
        if row.label in various:
            row = row._replace(old="(various)")
        yield row.line(change.kind)
