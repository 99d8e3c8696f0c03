"""Databases with the fault that a cursor finds in them, and what it reads of them."""
from __future__ import annotations

from typing import Optional

from tests.planned.plans import Limits

# The kind of a fault, and its column if it has one.
Kind = Optional[tuple[str, Optional[int]]]
# How many entries come before the fault, its line and kind, and the text.
Row = tuple[int, int, Kind, bytes]


def row(entries: int, line: int, kind: str, text: bytes, column: int | None = None) -> Row:
    return entries, line, (kind, column), text


def after_spec(entries: int, line: int, kind: str, rest: bytes, column: int | None = None) -> Row:
    return row(entries, line, kind, b"@@begin_db\n@@db_spec " + rest, column)


def sound(entries: int, text: bytes) -> Row:
    return entries, 0, None, text


WITHOUT_COLUMNS = [
    row(0, 1, "NoBegin", b""),
    row(0, 4, "NoBegin", b"# a\n\n \t\n"),
    row(0, 1, "NoBegin", b"\x1f\x8b\x08\x00\n"),
    row(0, 1, "NoBegin", b"@@db_spec name\n@@begin_db\n"),
    row(0, 1, "NoBegin", b"@@end_db\n"),
    row(0, 2, "NoEnd", b"@@begin_db"),
    row(0, 2, "BadDirective", b"@@begin_db\n@@begin_db\n"),
    row(0, 2, "NoSpec", b"@@begin_db\n/a\n"),
    row(0, 2, "NoSpec", b"@@begin_db\n@@end_db\n"),
    row(0, 2, "BadSpec", b"@@begin_db\n@@db_spec\n"),
]
WITH_COLUMNS = [
    after_spec(0, 2, "BadSpec", b"size\n"),
    after_spec(0, 2, "BadSpec", b"name name\n"),
    after_spec(0, 2, "BadSpec", b"name size size\n"),
    after_spec(0, 2, "BadSpec", b"name" + 64 * b" x"),
    after_spec(0, 3, "NoEnd", b"name" + 63 * b" x"),
    after_spec(0, 3, "BadDirective", b"name size\n@@db_spec name\n"),
    after_spec(0, 3, "BadDirective", b"name size\n@@foo\n@@end_db\n"),
    after_spec(1, 4, "BadDirective", b"name\n/a\n@@end_dbx\n"),
    after_spec(1, 4, "NoEnd", b"name size\n/a 1\n"),
    after_spec(0, 3, "FieldCount", b"name size\n/a\n"),
    after_spec(0, 3, "FieldCount", b"name size\n/a 1 2\n"),
    after_spec(0, 3, "BadName", b"name size\na 1\n"),
    after_spec(0, 3, "BadName", b"name size\na x\n"),
    after_spec(0, 3, "FieldCount", b"name size\na\n"),
    after_spec(0, 3, "BadName", b"name size\n%2 1\n"),
    after_spec(0, 3, "BadName", b"name size\n%61 1\n"),
    after_spec(1, 4, "OutOfOrder", b"name size\n/a 1\n/a x\n"),
    after_spec(1, 4, "OutOfOrder", b"name size\n/%61 1\n/a 1\n"),
    after_spec(3, 6, "OutOfOrder", b"name\n/b\n/c\n/d\n/a\n@@end_db\n"),
    after_spec(2, 5, "OutOfOrder", b"name size\n/a 1\n/a-b 1\n/a/b 1\n@@end_db\n"),
    after_spec(0, 3, "BadNumber", b"name size\n/a x\n", 2),
    after_spec(6, 9, "BadNumber", b"name size\n/a 1\n/b 1\n/c 1\n/d 1\n/e 1\n/f 1\n/g x\n", 2),
    after_spec(1, 4, "BadNumber", b"size name\n1 /a\n+1 /b\n", 1),
    after_spec(1, 4, "BadNumber", b"name attr\n/a -0\n/b -1\n", 2),
    after_spec(1, 4, "BadTime", b"name md5 mtime size\n/a 0 0 1\n/b 0 x! x\n", 3),
    after_spec(1, 4, "BadDigest", b"name md5 mtime size\n/a 0 0 1\n/b AAAA x! 1\n", 2),
    after_spec(0, 3, "BadNumber", b"name attr size\n/a 0 x\n", 3),
]
SOUND = [
    sound(1, b"@@begin_db\n@@db_spec name size\n/a 1\n@@end_db"),
    sound(0, b"@@begin_db\n@@db_spec name size\n@@end_db\n"),
    sound(
        1,
        b"# a\n@@begin_db x y\n\n@@db_spec foo name foo\n#/a\n- /a +\n@@end_db z\n@@begin_db\n\xff",
    ),
    sound(1, b"\t@@begin_db \n @@db_spec\tname \t size\n\t /a \t 1\t\n \n # b\n@@end_db\n"),
    sound(1, b"@@begin_db\n@@db_spec name size\n%2Fa 1\n@@end_db\n"),
    sound(
        6,
        b"@@begin_db\n@@db_spec name size\n/ 1\n// 1\n/a 1\n/a/ 1\n/a/b 1\n/a-b 1\n@@end_db\n",
    ),
    sound(2, b"@@begin_db\n@@db_spec name foo bar\n/a x y\n/b  \t- +\n@@end_db\n"),
    sound(1, b"@@begin_db\n@@db_spec acl name\n#x /a\nx /b\n@@end_db\n"),
    sound(
        3,
        b"@@begin_db\n@@db_spec size name\n-0 /a\n007 /b\n18446744073709551615 /c\n@@end_db",
    ),
]
ALL = WITHOUT_COLUMNS + WITH_COLUMNS + SOUND

# The least and the most bytes after which the old database is cut, and then the number of entries,
# the line and the kind of the fault.
CUTS = [
    (0, 9, 0, 1, "NoBegin"),
    (10, 11, 0, 2, "NoEnd"),
    (12, 12, 0, 2, "NoSpec"),
    (13, 19, 0, 2, "BadDirective"),
    (20, 24, 0, 2, "BadSpec"),
    (25, 41, 0, 3, "NoEnd"),
    (42, 53, 0, 3, "FieldCount"),
    (54, 58, 1, 4, "NoEnd"),
    (59, 71, 1, 4, "FieldCount"),
    (72, 74, 2, 5, "NoEnd"),
    (75, 75, 2, 5, "FieldCount"),
    (76, 81, 2, 5, "BadDirective"),
    (82, 83, 2, 5, None),
]

BEGUN = b"@@begin_db\n@@db_spec name size\n"
# Three lines of 10, 19 and 4 bytes and an end line of 8.
SHORT = BEGUN + b"/a 1\n@@end_db\n"
OF_30 = BEGUN + b"/%s 1\n@@end_db\n" % (27 * b"a")
OF_31 = BEGUN + b"/%s 1\n@@end_db\n" % (28 * b"a")
WITH_LONG_END = b"@@begin_db\n@@db_spec name\n/a\n@@end_db and more than 14 bytes\n"
# Limits, and then the number of entries, the line and the kind of the fault, and the text.
LIMITED = [
    (Limits(30), 1, 0, None, OF_30),
    (Limits(30), 0, 3, "LineTooLong", OF_31),
    (Limits(14), 1, 4, "LineTooLong", WITH_LONG_END),
    (Limits(19, 45), 1, 0, None, SHORT),
    (Limits(19, 44), 1, 4, "TooManyBytes", SHORT),
    (Limits(19, 36), 1, 4, "TooManyBytes", SHORT),
    (Limits(19, 35), 0, 3, "TooManyBytes", SHORT),
    (Limits(19, 1), 0, 1, "TooManyBytes", SHORT),
    (Limits(18, 45), 0, 2, "LineTooLong", SHORT),
    (Limits(18, 30), 0, 2, "LineTooLong", SHORT),
    (Limits(18, 29), 0, 2, "TooManyBytes", SHORT),
    (Limits(19, 40), 0, 0, None, BEGUN + b"@@end_db\n"),
    (Limits(19, 39), 0, 3, "TooManyBytes", BEGUN + b"@@end_db\n"),
]

# A text, the byte that follows it for ever, and the line and the kind of the fault.
ENDLESS = [
    (b"", ord("x"), 1, "LineTooLong"),
    (b"", ord("\n"), 1_048_577, "TooManyBytes"),
    (BEGUN + b"/", ord("a"), 3, "LineTooLong"),
    (BEGUN + b"@@end_db\n", ord("x"), 4, "TooManyBytes"),
]

# A limit on the bytes of a database of 10,000, how often it is read, and what the first four reads
# give.
READS = [
    (1_048_576, 4, [4096, 4096, 1808, 0]),
    (10_000, 4, [4096, 4096, 1808, 0]),
    (9_999, 3, [4096, 4096, 1808, 0]),
    (8_192, 3, [4096, 4096, 1, 0]),
    (8_191, 2, [4096, 4096, 0, 0]),
    (100, 1, [101, 0, 0, 0]),
]
