"""Random databases of a trusted machine beside a random pair: its entries are often those of the
pair, in its own state."""
from __future__ import annotations

import os
import random

from tests.oracle.attributes import ATTRIBUTES

from .configurations import random_words
from .databases import BREAKS, Columns, Rows, broken, edited, lines_of_database, random_columns
from .databases import random_entries, random_row, random_value

FORMS = {attribute.column.encode(): attribute.form for attribute in ATTRIBUTES}
DIGESTS = [column for column, form in FORMS.items() if isinstance(form, tuple)]
# What each machine has of its own, and what a directory has besides.
OWN = [b"atime", b"mtime", b"ctime", b"inode", b"bcount"]
OF_DIRECTORIES = [b"size"]
# Columns without which no entries agree, or few.
USUAL = [b"perm", b"uid", b"gid", b"sha256", b"mtime"]
MODES = [0o100644, 0o100644, 0o100755, 0o104755, 0o40755, 0o40775, 0o120777, 0o20600]
# Names in patterns, and lines of a list that have a fault.
NAMED = [b"a", b"b", b"*", b"**", b"?", b"[a-c]", b"[!a]*", b"\\a", b"\\*", b".*"]
NAMED += [b"?\xff", b"[]a]", b"[.]a", b"\\.a", b"?a", b".?", b"*b*c", b"[^b-]", b"@*"]
FAULTY = [b"a", b"/a**", b"/a\\", b"/[a", b"/[!]", b"/[b-a]", b"programs() /a", b"programs(a) a"]
FAULTY += [b"programs(x)/a", b"programs(a(b) /a"]
BAD_WORDS = b"--trusted-old|--trusted-new x|--trusted|--trusted-old=|-t".split(b"|")
CONTENTS = [bytes([number] * 32) for number in range(3)]


def usual_columns(pick: random.Random) -> Columns:
    """Columns of which most have a type, an owner, a strong digest and a time."""
    columns = random_columns(pick)
    known = [column for column, _ in columns]
    for column in USUAL:
        if column not in known and pick.random() < 0.95:
            columns.append((column, FORMS[column]))
    return columns


def usual_entries(pick: random.Random, columns: Columns) -> Rows:
    """Entries with modes that machines have, and with contents of which there are few."""
    entries = random_entries(pick, columns)
    for row in entries.values():
        row[b"perm"] = pick.choice(MODES)
        row[b"uid"] = pick.choice([0, 0, 33])
        row[b"gid"] = pick.choice([0, 0, 33])
        if pick.random() < 0.9:
            row[b"sha256"] = pick.choice(CONTENTS)
        if row[b"perm"] >> 12 == 0o12:
            row[b"lname"] = pick.choice([b"target", b"other", None])
    return entries


def in_own_state(pick: random.Random, columns: Columns, entries: Rows) -> Rows:
    """The same entries on another machine: with its own times, inodes and sizes of directories."""
    restated = {}
    for path, row in entries.items():
        row = dict(row)
        own = OWN + (OF_DIRECTORIES if row.get(b"perm", 0) >> 12 == 0o4 else [])
        for column in own:
            if column in row and pick.random() < 0.5:
                row[column] = random_value(pick, FORMS[column])
        for column in DIGESTS:
            if column in row and pick.random() < 0.05:
                row[column] = None
        restated[path] = row
    return restated


def text_of(pick: random.Random, columns: Columns, entries: Rows, often: float) -> bytes:
    """The text of a database, which has a fault that often."""
    rows = {path: {**random_row(pick, columns), **row} for path, row in entries.items()}
    lines = lines_of_database(pick, columns, rows)
    text = b"\n".join(lines) + b"\n"
    return (
        broken(pick, columns, lines, text, pick.choice(BREAKS)) if pick.random() < often else text
    )


def random_four(pick: random.Random) -> list[bytes]:
    """The texts of an old and a new database, and of those of a trusted machine."""
    columns = usual_columns(pick)
    old = usual_entries(pick, columns)
    new = edited(pick, columns, old)
    some = {path: row for path, row in new.items() if pick.random() < 0.5}
    new.update(in_own_state(pick, columns, some))
    trusted = [in_own_state(pick, columns, edited(pick, columns, side)) for side in (old, new)]
    other = columns if pick.random() < 0.8 else usual_columns(pick)
    often = pick.choice([0, 0, 0.1])
    texts = [text_of(pick, columns, side, often) for side in (old, new)]
    return texts + [text_of(pick, other, side, often) for side in trusted]


def random_list(pick: random.Random) -> bytes:
    """The text of a list, some of whose lines have a fault."""
    lines = []
    for _ in range(pick.choice([0, 1, 1, 2, 4])):
        pattern = pick.choice([b"/**", b"/**/?*", b"/*", b"/[!b]*/**", b"/?", b"/*/*"])
        if pick.random() < 0.3:
            pattern = b"/" + b"/".join(pick.choice(NAMED) for _ in range(pick.randint(1, 3)))
        if pick.random() < 0.5:
            pattern = b"programs(made anew) " + pattern
        if pick.random() < 0.02:
            pattern = pick.choice(FAULTY)
        lines.append(pick.choice([b"", b"", b"# why", b"  "]) + b"\n" + pattern)
    return b"\n".join(lines)


def random_words_beside(
    pick: random.Random, folder: bytes, config: bytes, bad: float
) -> list[bytes]:
    """A command line that mostly names a trusted pair in a folder too, and often gives a list."""
    trusted = []
    for name in (b"old", b"new") if pick.random() < 0.8 else ():
        option, path = b"--trusted-" + name, os.path.join(folder, b"trusted_" + name)
        if pick.random() < 0.01:
            path += b"x"
        if pick.random() < 0.98:
            trusted += pick.choice([[option, path], [option + b"=" + path]])
    if pick.random() < bad / 4:
        trusted += pick.choice(BAD_WORDS).split(b" ")
    if pick.random() < 0.6:
        trusted += [b"--without=" + random_list(pick)]
    words = random_words(pick, config, bad)
    return trusted + words if pick.random() < 0.3 else words + trusted
