"""What the program's error lines mean: which file and line, and the cause if it can be seen; and
notes on columns that were skipped and on databases that are equal, or in another order."""
from __future__ import annotations

import os
import re
from collections.abc import Iterable, Iterator, Mapping, Sequence

from aide_compare.base.database import MAX_LINE, Kind, Layout
from aide_compare.base.escapes import shown
from aide_compare.base.files import reopened
from aide_compare.base.words import SIDES, minute_of
from aide_compare.compare.configuration import ConfigurationTexts
from aide_compare.compare.unpack import Copy

LINE = rb"aide: ((?:trusted )?(?:old|new) database|config|after):(\d+): (.*)"
# The comment in which AIDE dates a database, before its first entry; the zone since 0.19.
DATED = rb"(?m)^# Time of generation was ([0-9: -]{19})(| [+-][0-9]{4})$"
BLOCK = 1 << 20
MAX_HEAD = 1 << 16
MAX_NAME = 40
UNKNOWN_BEGINNING = (
    "it is not an AIDE database, its beginning is missing, or it is packed by another program than "
    "gzip: then as in xz -dc FILE | aide-compare OLD -"
)
OTHER_ENDS = "its lines end in CR and LF: copy it byte by byte"
# What the words of a refusal mean, where they say too little.
CAUSES = {
    b"no @@end_db": ("it ends too early: was the disk full, or is AIDE still writing it?",),
    b"entry out of path order": (
        "AIDE writes its databases in order, so a database straight from AIDE is damaged: "
        "make it anew",
        "if another tool wrote or merged it, aide-compare sort puts its entries in order; "
        "find out why if a path is there twice",
    ),
}
# Bytes that no text has, and how packed ones begin, which would hide the lines around them.
BINARY = (
    rb"[\x00-\x08\x0b\x0c\x0e-\x1a\x1c-\x1f]"
    rb"|^(?:\xfd7zXZ|\x28\xb5\x2f\xfd|BZh|\xef\xbb\xbf|\xff\xfe)"
)


def _start_of_line(descriptor: int, number: int) -> bytes:
    """The beginning of a line of a database; nothing if there is no such line. Memory does not grow
    with the file."""
    count = 1
    with open(reopened(descriptor, os.O_RDONLY), "rb", BLOCK) as file:
        while part := file.readline(MAX_LINE):
            if count == number:
                return part.rstrip(b"\n")
            count += part.endswith(b"\n")
    return b""


def _database_hints(side: str, number: int, words: bytes, copy: Copy) -> Iterator[str]:
    name = f"the {side} is {shown(copy.name)}"
    line = _start_of_line(copy.fd, number)
    if words == b"no @@begin_db" and copy.size:
        cause = UNKNOWN_BEGINNING
        if line == b"@@begin_db\r":
            cause = OTHER_ENDS
        name += f"; {cause}"
    yield name
    if not copy.size:
        yield "it is empty: does AIDE run now? It fills its new database at its end"
    if line and not re.search(BINARY, line):
        yield f"line {number}: {shown(line, 200)}"
    yield from CAUSES.get(words, ())


def hints_of(
    errors: bytes, texts: ConfigurationTexts, path: str, copies: Mapping[str, Copy]
) -> list[str]:
    """The lines that explain the first error line over texts, the path of the configuration, and
    the copies that were made."""
    match = re.match(LINE, errors)
    if match is None:
        return []
    where = match.group(1).decode()
    number = int(match.group(2))
    words = match.group(3)
    if where.endswith(" database"):
        copy = copies.get(where.removesuffix(" database").replace(" ", "_"))
        if copy is None:
            return []
        return list(_database_hints(where, number, words, copy))
    places = {
        "after": ("this is the text of -A", texts.after),
        "config": (f"the configuration is {shown(path)}", texts.config),
    }
    name, text = places[where]
    line = dict(enumerate(text.split(b"\n"), 1)).get(number, b"")
    if not line.strip():
        return [name]
    hints = [name, f"line {number}: {shown(line, 200)}"]
    if words == b"unknown attribute" and line.startswith(b"report_"):
        option = line.partition(b"=")[0].strip()
        hints.append(f"there is no option {shown(option, 40)}: see aide-compare.conf(5)")
    return hints


def column_names(database: int, numbers: Iterable[int]) -> list[str]:
    """The names of columns by their numbers; these where the first lines name none."""
    layout = Layout()
    for line in os.pread(database, MAX_HEAD, 0).split(b"\n"):
        if layout.kind_of(line) is Kind.COLUMNS:
            break
    names = []
    for number in numbers:
        if number <= len(layout.columns):
            names.append(shown(layout.columns[number - 1], MAX_NAME))
        else:
            names.append(f"#{number}")
    return names


def column_notes(skipped: Mapping[str, Sequence[str]]) -> Iterator[str]:
    """A line for each column, with the side if it is one of a single database."""
    for name in dict.fromkeys(name for names in skipped.values() for name in names):
        sides = [side for side, names in skipped.items() if name in names]
        column = f"the column {name}"
        if len(sides) == 1:
            column += f" of the {sides[0]} database"
        yield f"{column} is not compared: the program does not know it"


def equal_notes(copies: Mapping[str, Copy]) -> Iterator[str]:
    """A line if both databases are the same bytes."""
    old, new = copies["old"], copies["new"]
    if old.size != new.size or old.sha256 != new.sha256:
        return
    if old.written is not None and new.written is not None and old.written > new.written:
        date = minute_of(old.written)
        yield f"accepted on {date}; AIDE has not run since: both databases are equal"
    else:
        yield "both databases are equal, byte for byte: has AIDE written a new one?"


def order_notes(copies: Mapping[str, Copy]) -> Iterator[str]:
    """A line if AIDE wrote the new database before the old one, as it has dated both in one zone.
    The times of the files say nothing: accepting a database, or copying it, gives it another
    one."""
    old, new = (re.search(DATED, os.pread(copies[side].fd, 1000, 0)) for side in SIDES)
    if old and new and old.group(2) == new.group(2) and new.group(1) < old.group(1):
        times = f"{new.group(1).decode()}, and {old.group(1).decode()}"
        yield f"the new database is older than the old one ({times}): were they swapped?"
