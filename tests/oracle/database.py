"""The first fault of a database, or its entries: a map from paths to maps from attributes to
values."""
from __future__ import annotations

from functools import lru_cache
from itertools import accumulate
from typing import Any, NamedTuple

from .attributes import ATTRIBUTES
from .fields import Meaningless, decoded, number_of, values_of
from .texts import fields_of, lines_of

LINE_LIMIT, BYTE_LIMIT, COLUMN_LIMIT = 1048576, 2**40, 64
WITHOUT_ENTRIES = b"@@begin_db\n@@db_spec name\n@@end_db\n"
KNOWN = [b"name", b"attr"] + [attribute.column.encode() for attribute in ATTRIBUTES]

# The number of a line and its fields.
Line = tuple[int, list[bytes]]
# The values of the attributes that an entry has, and the entries by their paths.
Entry = dict[str, Any]
Entries = dict[bytes, Entry]


class Fault(NamedTuple):
    line: int
    kind: str
    column: int | None


class Database(NamedTuple):
    entries: Entries
    skipped: list[int] = []


class Parts(NamedTuple):
    """The lines of a text that are not skipped, by what they are."""

    begin: list[Line]
    spec: list[Line]
    entries: list[Line]
    end: list[Line]


def order_of(path: bytes) -> list[bytes]:
    return path.split(b"/")


def parts_of(lines: list[bytes]) -> Parts:
    """The first line, the second one, those up to the end line, and that, if they are there."""
    read = [(number, fields_of(line)) for number, line in enumerate(lines, 1)]
    read = [
        (number, fields) for number, fields in read if fields and not fields[0].startswith(b"#")
    ]
    ends = [index for index in range(2, len(read)) if read[index][1][0] == b"@@end_db"] + [
        len(read)
    ]
    return Parts(read[:1], read[1:2], read[2 : ends[0]], read[ends[0] :][:1])


def is_spec(fields: list[bytes]) -> bool:
    columns = fields[1:]
    known = [column for column in columns if column in KNOWN]
    return (
        fields[0] == b"@@db_spec"
        and 1 <= len(columns) <= COLUMN_LIMIT
        and columns.count(b"name") == 1
        and len(set(known)) == len(known)
    )


def spec_fault(fields: list[bytes]) -> str | None:
    if fields[0] == b"@@db_spec":
        return None if is_spec(fields) else "BadSpec"
    return "BadDirective" if fields[0].startswith(b"@@") and fields[0] != b"@@end_db" else "NoSpec"


def path_of(columns: list[bytes], fields: list[bytes]) -> bytes:
    return decoded(fields[columns.index(b"name")])


def shape_fault(columns: list[bytes], fields: list[bytes]) -> str | None:
    """What is wrong with an entry before its order is asked for."""
    if fields[0].startswith(b"@@"):
        return "BadDirective"
    if len(fields) != len(columns):
        return "FieldCount"
    return None if path_of(columns, fields).startswith(b"/") else "BadName"


def column_fault(columns: list[bytes], fields: list[bytes]) -> tuple[str, int] | None:
    """The kind and the column of the first field without a meaning."""
    for number, (column, field) in enumerate(zip(columns, fields), 1):
        try:
            if column == b"attr":
                number_of(field, 0)
            for attribute in ATTRIBUTES:
                if attribute.column.encode() == column:
                    values_of(attribute, field, None)
        except Meaningless as meaningless:
            return str(meaningless), number
    return None


def entry_faults(columns: list[bytes], entries: list[Line]) -> list[Fault]:
    """The first fault of the entries, as a list."""
    shapes = [(number, shape_fault(columns, fields)) for number, fields in entries]
    whole = next((index for index, shape in enumerate(shapes) if shape[1]), len(entries))
    orders = [order_of(path_of(columns, fields)) for _, fields in entries[:whole]]
    greatest = list(accumulate(orders, lambda one, other: max(one, other)))
    for index, (number, fields) in enumerate(entries[:whole]):
        if index and not greatest[index - 1] < orders[index]:
            return [Fault(number, "OutOfOrder", None)]
        fault = column_fault(columns, fields)
        if fault:
            return [Fault(number, *fault)]
    return [Fault(number, shape, None) for number, shape in shapes[whole : whole + 1] if shape]


def text_faults(parts: Parts) -> list[Fault]:
    """The first fault of the lines that are not skipped, as a list."""
    for number, fields in parts.begin:
        if fields[0] != b"@@begin_db":
            return [Fault(number, "NoBegin", None)]
    for number, fields in parts.spec:
        fault = spec_fault(fields)
        if fault:
            return [Fault(number, fault, None)]
        return entry_faults(fields[1:], parts.entries)
    return []


def line_faults(lines: list[bytes], parts: Parts, limit: int) -> list[Fault]:
    """The first line with a fault, as a list; of two in a line its length comes first."""
    last = parts.end[0][0] if parts.end else len(lines)
    faults = [
        (number, 0, Fault(number, "LineTooLong", None))
        for number, line in enumerate(lines[:last], 1)
        if len(line) > limit
    ][:1]
    faults += [(fault.line, 1, fault) for fault in text_faults(parts)]
    return [fault for _, _, fault in sorted(faults, key=lambda known: known[:2])[:1]]


@lru_cache(maxsize=8)  # Both programs are asked over the same texts.
def first_fault(
    text: bytes, line_limit: int = LINE_LIMIT, byte_limit: int = BYTE_LIMIT
) -> Fault | None:
    """The first fault of a text, None for a sound one."""
    given, is_cut = text[:byte_limit], len(text) > byte_limit
    unfinished = given[given.rfind(b"\n") + 1 :]
    lines = lines_of(given[: len(given) - len(unfinished)] if is_cut else given)
    parts = parts_of(lines)
    faults = line_faults(lines, parts, line_limit)
    if faults:
        return faults[0]
    if is_cut:
        is_long = not parts.end and len(unfinished) > line_limit
        return Fault(given.count(b"\n") + 1, "LineTooLong" if is_long else "TooManyBytes", None)
    if parts.end:
        return None
    return Fault(len(lines) + 1, "NoEnd" if parts.begin else "NoBegin", None)


def front_of(text: bytes) -> bytes:
    """A sound text that has the entries of a text before its first fault."""
    fault = first_fault(text)
    if fault is None:
        return text
    front = b"\n".join([*text.split(b"\n")[: fault.line - 1], b"@@end_db", b""])
    return WITHOUT_ENTRIES if first_fault(front) else front


def entry_of(columns: list[bytes], fields: list[bytes]) -> Entry:
    """The attributes that an entry has, with their values."""
    row = dict(zip((column.decode("latin-1") for column in columns), fields))
    bits = number_of(row["attr"], 0) if "attr" in row else None
    return {
        attribute.name: value
        for attribute in ATTRIBUTES
        if attribute.column in row
        for value in values_of(attribute, row[attribute.column], bits)
    }


@lru_cache(maxsize=8)
def database_of(text: bytes) -> Database:
    """The entries of a sound text and its skipped columns."""
    parts = parts_of(lines_of(text))
    columns = parts.spec[0][1][1:]
    entries = {path_of(columns, fields): entry_of(columns, fields) for _, fields in parts.entries}
    return Database(
        entries, [number for number, column in enumerate(columns, 1) if column not in KNOWN]
    )
