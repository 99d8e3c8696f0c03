"""Reads the lines of aide_lines: the names of the databases, a line for each change in the order of
paths, and an end that says what was read of each database, and all counts. Lines without their end
were cut, and are not believed."""
from __future__ import annotations

import json
import os
from collections import Counter
from collections.abc import Iterator
from functools import partial
from typing import Any, BinaryIO, NamedTuple

from aide_compare.base.ending import DeviceFault
from aide_compare.base.files import BLOCK
from aide_compare.base.words import KINDS, SIDES, TRUSTED_SIDES, status_of_counts
from aide_compare.lines.change import LEFT_OUT, ODD, ChangeLine, Fields, Standing
from aide_compare.lines.change import change_line, parsed

FORMAT = 4
# An entry has at most the bytes of two lines of databases, and six times as many in JSON, some of
# them in base 16 too.
LINE_LIMIT = 1 << 25
DIGEST_BYTES = 32
HEX = "_hex"  # At the end of the name of a text in base 16.
ENCODE = json.JSONEncoder(separators=(",", ":")).encode
# The counts of the end by the kinds and the accounts of lines.
COUNTS_OF_END = {
    **dict(zip(KINDS, KINDS)),
    Standing.SAME.value: "same_as_old",
    Standing.TRUSTED.value: "same_as_trusted",
    Standing.LEFT_OUT.value: LEFT_OUT,
    "": "others",
}


def embedded(fields: object) -> bytes:
    """JSON as it stands in an element of a page, too: no text in it ends that element."""
    return ENCODE(fields).replace("<", "\\u003c").encode()


class Refused(DeviceFault):
    """What is wrong with a line, so that the whole is no stream of lines."""

    def __init__(self, number: int, words: str) -> None:
        super().__init__(f"line {number}: {words}")


class EndCounts(NamedTuple):
    """What the last line says: how many entries the new database has, how many changes of each kind
    there are, and how many have which account."""

    total: int
    added: int
    removed: int
    changed: int
    same_as_old: int
    same_as_trusted: int
    left_out: int
    others: int

    @property
    def kinds(self) -> tuple[int, int, int]:
        return self.added, self.removed, self.changed

    @property
    def changes(self) -> int:
        return sum(self.kinds)

    @property
    def status(self) -> int:
        return status_of_counts(self.kinds)


# What a stream says whose last line was not read yet: fewer changes than it has.
NOTHING_COUNTED = EndCounts(0, 0, 0, 0, 0, 0, 0, 0)


def end_of(fields: Fields) -> EndCounts:
    """The counts of the object of a last line; one of ODD if it is none."""
    for side in (*SIDES, *TRUSTED_SIDES):
        if len(bytes.fromhex(fields[side]["sha256"])) != DIGEST_BYTES:
            raise ValueError("a database that was not read")
    numbers = {name: fields[name] for name in EndCounts._fields}
    if not all(type(number) is int and number >= 0 for number in numbers.values()):
        raise ValueError("a count that is no number")
    end = EndCounts(**numbers)
    accounted = end.same_as_old + end.same_as_trusted + end.left_out + end.others
    if fields["end"] is not True or fields["status"] != end.status or accounted != end.changes:
        raise ValueError("counts that do not fit one another")
    return end


class Reader:
    """The lines of a file: the `summary` of the first one; each change, once; then what the last
    line says, as `end`, its object, and `counts`."""

    def __init__(self, file: BinaryIO) -> None:
        self.file = file
        self.end: Fields = {}
        self.counts = NOTHING_COUNTED
        self._lines: Counter[tuple[str, str]] = Counter()  # By kind and account.
        self.number = 1
        self.summary = self._object_of(file.readline(LINE_LIMIT))
        if self.summary.get("format") != FORMAT:
            raise Refused(self.number, f"the first line is the summary, of format {FORMAT}")

    def changes(self) -> Iterator[ChangeLine]:
        """The changes, in the order of their paths."""
        last = b""
        read = partial(self.file.readline, LINE_LIMIT)
        for self.number, line in enumerate(iter(read, b""), self.number + 1):
            fields = self._object_of(line)
            if "end" in fields:
                self._read_end(fields)
                return
            try:
                change = change_line(fields, line)
            except ODD:
                raise Refused(self.number, "this is no change") from None
            if change.key <= last:
                raise Refused(self.number, "the entry is not in the order of paths")
            last = change.key
            self._lines[change.counted] += 1
            yield change
        raise Refused(self.number, "this ends too early: the last line is missing")

    def _read_end(self, fields: Fields) -> None:
        """Takes the last line, whose counts of changes are those of the lines before it."""
        counted: Counter[str] = Counter()  # By each kind, and by each account.
        for words, lines in self._lines.items():
            counted.update(dict.fromkeys(words, lines))
        try:
            counts = end_of(fields)
            for key, name in COUNTS_OF_END.items():
                if counted[key] != getattr(counts, name):
                    raise ValueError
        except ODD:
            raise Refused(self.number, "the end does not fit the lines before it") from None
        if self.file.read(1):
            raise Refused(self.number + 1, "this is after the end")
        self.counts = counts
        self.end = fields

    def _object_of(self, line: bytes) -> Fields:
        fields: Any = None
        try:
            fields = parsed(line)
        except (ValueError, RecursionError):
            pass
        if not line.endswith(b"\n") or not isinstance(fields, dict):
            raise Refused(self.number, "this is no line of changes")
        return fields


def reader_over(descriptor: int) -> Reader:
    """A Reader of all lines that the file of a descriptor has."""
    file = open(os.dup(descriptor), "rb", BLOCK)
    file.seek(0)
    return Reader(file)
