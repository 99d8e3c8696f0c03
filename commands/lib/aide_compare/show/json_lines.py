"""The lines of aide-compare json: those of aide_lines, each with what the commands add, such as its
standing."""
from __future__ import annotations

import os
from collections.abc import Iterator
from typing import TYPE_CHECKING

from aide_compare.base.words import SIDES, TRUSTED_SIDES
from aide_compare.changes.table import Marks
from aide_compare.lines.change import Fields, Standing, parsed
from aide_compare.lines.reader import ENCODE, HEX, Reader

if TYPE_CHECKING:
    from aide_compare.changes.judged import Judged
    from aide_compare.compare.comparison import Comparison


def name_member(side: str, path: bytes) -> Fields:
    """The name of a database as a member, in base 16 where it is not UTF-8."""
    try:
        return {side: path.decode("utf-8")}
    except UnicodeDecodeError:
        return {side + HEX: path.hex()}


def summary_of(summary: Fields, comparison: Comparison) -> Fields:
    """The first line, with the names of the databases; that of one which was not named is empty."""
    members: Fields = {"format": summary["format"]}
    for side in (*SIDES, *TRUSTED_SIDES):
        copy = comparison.copies.get(side)
        members.update(name_member(side, os.fsencode(copy.name) if copy else b""))
    return members


def end_of(reader: Reader, comparison: Comparison, judged: Judged | None) -> Fields:
    """The last line, with the names of the columns that were not compared, if there are any."""
    end = dict(reader.end)
    if comparison.skipped:
        end["skipped"] = comparison.skipped
    if judged is not None:
        end["standings"] = judged.counts._asdict()
    return end


def marked_lines(reader: Reader) -> Iterator[tuple[bytes, Marks]]:
    """The lines of a Reader, each with the standing of its change, as far as the line has it."""
    for change in reader.changes():
        yield change.line, Marks((change.silent or Standing.OPEN).value)


def line_of(fields: Fields) -> bytes:
    """The line of an object."""
    return ENCODE(fields).encode() + b"\n"


def marked_line(line: bytes, marks: Marks) -> bytes:
    """A line of aide_lines with further members. Its own bytes stay if they are ASCII: a terminal
    could write other letters in another direction."""
    if not line.isascii():
        line = line_of(parsed(line))
    return line[: -len(b"}\n")] + marks.members() + b"\n"


def added_lines(comparison: Comparison, judged: Judged | None) -> Iterator[bytes]:
    """Yields the lines of a comparison with what is added."""
    if judged and judged.only_counted:
        judged = None
    reader = judged.reader if judged else comparison.reader()
    yield line_of(summary_of(reader.summary, comparison))
    for line, marks in judged.lines() if judged else marked_lines(reader):
        yield marked_line(line, marks)
    yield line_of(end_of(reader, comparison, judged))
