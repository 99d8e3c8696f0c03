"""The page of changes: one file with its style, its script and its data. The data are the changes,
each text of them escaped, from which the script makes what is seen: no markup is made here of what
a host has written."""
from __future__ import annotations

import base64
import hashlib
import json
import os
from collections.abc import Callable, Iterable, Iterator
from html import escape
from itertools import chain
from typing import TYPE_CHECKING

from aide_compare.base.escapes import encoded, guarded, shown
from aide_compare.base.files import private_file
from aide_compare.base.program import NOTICE, is_for_looking
from aide_compare.base.words import KINDS, SEVERITIES, SIDES, capitalized, minute_of
from aide_compare.lines.attributes import CONTENT, FORMS, STRENGTH, word_of
from aide_compare.changes.table import BY_PACKAGE, LISTED, RECORDED, Marks
from aide_compare.lines.change import (
    Change,
    Counts,
    Fields,
    Standing,
    Texts,
    Value,
    Values,
    change_of,
    parsed,
)
from aide_compare.lines.readable import texts_of
from aide_compare.lines.reader import embedded
from aide_compare.show.json_lines import marked_lines
from aide_compare.show.brief import brief_of

if TYPE_CHECKING:
    from aide_compare.changes.judged import Judged
    from aide_compare.compare.comparison import Comparison

HERE = os.path.dirname(os.path.abspath(__file__))
POLICY = (
    "default-src 'none'; base-uri 'none'; form-action 'none'; style-src 'sha256-{style}';"
    " script-src 'sha256-{script}'"
)
SCRIPTS = ("page_logic.js", "page_tree.js", "page_values.js", "page.js")
# What the script has to know: the words of the filters, and the attributes.
NAMES = {label: CONTENT if label in STRENGTH else word_of(label) for label in FORMS}
CHOICES = {
    "kind": KINDS,
    "standing": [standing.value for standing in reversed(Standing)],
    "severity": SEVERITIES,
    "attribute": list(dict.fromkeys(NAMES.values())),
}
KNOWN = {"choices": CHOICES, "names": NAMES, "labels": list(FORMS), "strength": STRENGTH}
# The most bytes of a page, and what is kept free for remarks.
MAX_PAGE = 20000000
RESERVE = 8000
MAX_DIGEST = 200000
MAX_PATH_TEXT = 1000
MAX_NOTES = 20
BESIDE = len(b"[,],\n")
# Of a value of a host.
MAX_VALUE = 100000
MAX_NUMBER = 1 << 53  # A script would round it.


def part_of(name: str) -> str:
    """A file of the page that is the same for all."""
    with open(os.path.join(HERE, name), encoding="utf-8") as file:
        return file.read()


def script_of() -> str:
    words = [f"const {name} = {json.dumps(value)};" for name, value in KNOWN.items()]
    parts = "\n".join([*words, *map(part_of, SCRIPTS)])
    return f"'use strict';\n(() => {{\n{parts}\n}})();\n"


def digest_of(text: str) -> str:
    """The SHA-256 of a style or a script, as a policy has it."""
    return base64.b64encode(hashlib.sha256(text.encode()).digest()).decode()


def whole_page(
    title: str, digest: str, rows: Iterable[bytes], heading: Callable[[], Fields]
) -> Iterator[bytes]:
    """Yields a page. `digest` is what is seen without the script; the heading is made when all rows
    were. What is not proved says so above all else."""
    notice = ""
    if is_for_looking():
        notice = f'<p class="notice">{NOTICE}</p>\n'
    style = part_of("page.css")
    script = script_of()
    policy = POLICY.format(style=digest_of(style), script=digest_of(script))
    head = part_of("page.html").format(
        title=escape(guarded(title)),
        style=style,
        script=script,
        policy=policy,
        notice=notice,
        digest=encoded(escape(digest))[:MAX_DIGEST].decode("utf-8", "ignore"),
    )
    yield head.encode("utf-8", "backslashreplace")
    yield b'{"rows":['
    separator = b"\n"
    for row in rows:
        yield separator + row
        separator = b",\n"
    yield b'],\n"heading":%s}\n</script>\n</body>\n</html>\n' % embedded(heading())


def size_beside(title: str, digest: str, heading: Callable[[], Fields]) -> int:
    """How many bytes a page has beside its rows."""
    return RESERVE + sum(map(len, whole_page(title, digest, (), heading)))


def shown_value(value: Value) -> int | str:
    """A value as it is, for people."""
    if isinstance(value, int) and abs(value) < MAX_NUMBER:
        return value
    if isinstance(value, int):
        return str(value)
    if value is None:
        return "none"
    return shown(value, MAX_VALUE)


def values_of(values: Values, texts: Texts) -> Fields:
    """The values of a side. One that has a text for people has it with it."""
    fields: Fields = {label: shown_value(value) for label, value in values.items()}
    for label, text in texts.items():
        fields[label] = [fields[label], text]
    return fields


def both_values(change: Change) -> bytes:
    """The values of both sides of a change, as JSON."""
    texts = texts_of(change)
    old = values_of(change.old, texts.old)
    return embedded({"old": old, "new": values_of(change.new, texts.new)})


def head_of(change: Change, marks: bytes) -> bytes:
    """What the row of a change always has, with some marks as the end of an object."""
    labels = " ".join(label for label in FORMS if label in change.old or label in change.new)
    head = {"kind": change.kind, "path": shown(change.path), "labels": labels}
    return embedded(head)[: -len("}")] + marks


class PageRows:
    """The rows of a page, those that matter most first: these have room first, and values go before
    heads."""

    def __init__(self) -> None:
        self.file = private_file()  # Of each change a line with its head, and one with its values.
        self.size = 0  # Of all heads.
        self.count = 0
        self.listed = 0
        self.valued = 0

    def add(self, fields: Fields, marks: Marks) -> None:
        change = change_of(fields)
        head = head_of(change, marks.members())
        self.size += len(head) + BESIDE
        self.count += 1
        self.file.write(b"%b\n%b\n" % (head, both_values(change)))

    def chosen(self, room: int) -> Iterator[bytes]:
        """Yields the rows for which there is room: of all changes the heads, if these take no more
        than seven eighths of it, and of the first ones the values."""
        for_values = max(room - self.size, room // 8)
        for_heads = room - for_values
        self.file.seek(0)
        for head_line, values_line in zip(self.file, self.file):
            row = head_line[:-1]
            values = values_line[:-1]
            for_heads -= len(row) + BESIDE
            if for_heads < 0:
                return
            self.listed += 1
            for_values -= len(values)
            if for_values >= 0:
                self.valued += 1
                row += b"," + values
            yield b"[%s]" % row

    def remarks(self) -> list[str]:
        """What is missing."""
        remarks = []
        if self.listed < self.count:
            all_counted = "The counts are those of all."
            remarks.append(f"{self.listed:,} of {self.count:,} changes are here. {all_counted}")
        if self.valued < self.listed:
            remarks.append(
                f"Only the first {self.valued:,} of them have values: there is no room for more."
            )
        return remarks


def changes_in_order(judged: Judged) -> Iterator[tuple[Fields, Marks]]:
    """The objects of all changes with their marks, those that are read first before the others."""
    table = judged.table
    marked = chain(table.marks(LISTED), table.marks(RECORDED, order=BY_PACKAGE))
    for place, marks in marked:
        yield judged.line(place).fields, marks
    if judged.counts.silent:
        for line, marks in judged.lines():
            if not marks.severity:
                yield parsed(line), marks


def heading_of(comparison: Comparison, rows: PageRows, title: str) -> Fields:
    """What stands above the changes of a comparison."""
    end = comparison.known_lines().end
    counts = comparison.judgement.standings or Counts()
    words = {word.replace("_", " "): number for word, number in counts.numbers().items()}
    words.update(zip(KINDS, end.kinds))
    databases = []
    for side in SIDES:
        copy = comparison.copies[side]
        time = "" if copy.written is None else minute_of(copy.written)
        name = shown(copy.name, MAX_PATH_TEXT)
        databases.append({"side": side, "name": name, "time": time, "sha256": copy.sha256})
    remarks = rows.remarks()
    notes = [*comparison.judgement.doubts, *comparison.notes]
    remarks += [guarded(capitalized(note)) for note in notes[:MAX_NOTES]]
    total = f"{end.total:,} in the new database"
    return {
        "title": title,
        "facts": [["Compared", minute_of(comparison.time)], ["Entries", total]],
        "databases": databases,
        "counts": [[word, count] for word, count in words.items() if count] if rows.count else [],
        "is_whole": rows.listed == rows.count,
        "remarks": remarks,
        "lists": [],
        "outcome": "" if rows.count else "No differences between the two databases",
    }


def page_of(
    comparison: Comparison, judged: Judged | None, limit: int = MAX_PAGE
) -> Iterator[bytes]:
    """The page of a comparison."""
    rows = PageRows()
    if judged:
        for fields, marks in changes_in_order(judged):
            rows.add(fields, marks)
    else:
        for line, marks in marked_lines(comparison.reader()):
            rows.add(parsed(line), marks)
    title = shown(f"File changes on {os.uname().nodename}")
    digest = "No differences\n"
    if comparison.differs:
        digest = brief_of(judged).decode() or "Differences, not judged\n"

    def heading() -> Fields:
        return heading_of(comparison, rows, title)

    room = limit - size_beside(title, digest, heading)
    return whole_page(title, digest, rows.chosen(room), heading)
