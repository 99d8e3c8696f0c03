"""Entries whose names and values could be taken for markup, or for text that is escaped already."""
from __future__ import annotations

import random
from typing import Any

from tests.oracle.attributes import ATTRIBUTES
from tests.oracle.database import Database, Entries, Entry
from tests.program.random_texts.databases import LINKS, MODES, NUMBERS, OPAQUE, random_digest

NAMES = [
    *(b"a", b"b", b"x y", b"\n", b"\\", b"\\012", b" ", b"a ", b" a", b"\0", b"\x7f", b"\t"),
    *(b"\xff", b"\xc3", b"\xc3\xa9", b"\xe2\x80\xae" + b"txt.exe", b"\xe2\x80\xa8"),
    *(b"\xef\xbb\xbf", b"\xe3\x85\xa4", b"\xef\xb8\x8f", b"\xd7\x90"),
    *(b"<script>alert(1)</script>", b"</script>", b"</noscript>", b"<!--", b"-->"),
    *(b'<b class="added">added', b"\"'><img src=x onerror=alert(1)>", b"&lt;", b"\\u003c"),
    *(b"\xed\xa0\x80", b"\xf4\x90\x80\x80", b"x" * 300),
]
# Values that end in blanks, that are long, and that grow when they are escaped.
TARGETS = (
    LINKS + NAMES + [b"abc" + b" " * 40, b" " * 33, b"\\" * 20, b"\xff" * 40, b"abc" + b"\n" * 20]
)
VALUES = OPAQUE + [b"<script>", b"</script>", b'"', b"\xff" * 33, b"\xe2\x80\xae", b"a" * 200]
TYPES = [mode & 0o170000 for mode in MODES if mode & 0o170000]


def random_value(pick: random.Random, form: str | tuple[int, int]) -> Any:
    if form == "type":
        return pick.choice(TYPES)
    if form == "perm":
        return pick.choice(MODES) & 0o7777
    if form in ("number", "time"):
        return pick.choice(NUMBERS) if pick.random() < 0.5 else pick.randint(-(2**40), 2**40)
    if form == "link":
        return pick.choice(TARGETS)
    if form == "opaque":
        return pick.choice(VALUES)
    while True:
        digest = random_digest(pick, *form)
        if digest is not None:
            return digest


def random_entry(pick: random.Random, most: int) -> Entry:
    attributes = pick.sample(ATTRIBUTES, pick.randint(0, most))
    return {
        attribute.name: random_value(pick, attribute.form)
        for attribute in ATTRIBUTES
        if attribute in attributes
    }


def edited(pick: random.Random, entry: Entry) -> Entry:
    """An entry with some attributes changed, added or removed; sometimes all added or removed."""
    if pick.random() < 0.15:
        every = {attribute.name: random_value(pick, attribute.form) for attribute in ATTRIBUTES}
        return pick.choice([{}, every, {**every, "ftype": entry.get("ftype", 0o100000)}])
    entry = dict(entry)
    for attribute in ATTRIBUTES:
        if pick.random() < 0.3:
            entry.pop(attribute.name, None)
        if pick.random() < 0.3:
            entry[attribute.name] = random_value(pick, attribute.form)
    return entry


def random_databases(pick: random.Random) -> tuple[list[Database], list[bytes]]:
    """Two maps of entries, and texts to take the digests of."""
    old: Entries = {}
    new: Entries = {}
    most = pick.choice([0, 3, 12, 33])
    for _ in range(pick.choice([0, 1, 3, 8, 20])):
        path = b"".join(b"/" + pick.choice(NAMES) for _ in range(pick.randint(1, 4)))
        entry = random_entry(pick, most)
        kind = pick.choice(["old", "new", "both", "both", "both", "same"])
        if kind != "new":
            old[path] = entry
        if kind != "old":
            new[path] = (
                entry if kind == "same" else edited(pick, entry) if kind == "both" else entry
            )
    return [Database(old), Database(new)], [b"%d" % pick.getrandbits(64) for _ in range(2)]
