"""The lines of a database: which are entries, and in which field each column is.

Only what copies a database reads that form beside the proved program: sorted, kept open or
expected. The program alone says whether a database is sound, and what a change is.
"""
from __future__ import annotations

import os
import re
from enum import Enum

from aide_compare.base.ending import Fault, Status
from aide_compare.base.paths import key_of

# The proved program refuses a longer line.
MAX_LINE = 1 << 20
FIELDS = rb"[^ \t\n]+"
PATH_COLUMN = b"name"
ABSENT = b"0"  # The field of a value that an entry does not have.
# Bits of the modes of entries.
SET_ID = 0o6000
RUN_BITS = 0o111


class Kind(Enum):
    """What a line of a database is."""

    ENTRY = "an entry"
    BESIDE = "blank, a comment, a line for AIDE, or after the end"
    COLUMNS = "the names of the columns"
    END = "the end"


def refuse_terminal() -> None:
    """A database may have any bytes, and a terminal obeys some of them."""
    if os.isatty(1):
        raise Fault(Status.USAGE, "standard output is a terminal: write the database to a file")


def fields_in(line: bytes) -> list[bytes]:
    """The fields of a line."""
    if b"\r" in line or b"\v" in line or b"\f" in line:  # Blanks for Python only.
        return re.findall(FIELDS, line)
    return line.split()


class Layout:
    """What the lines that were read so far say of those that follow: the columns, and the end."""

    def __init__(self) -> None:
        self.columns: tuple[bytes, ...] = ()
        self.is_over = False
        self._path: re.Pattern[bytes] | None = None  # What matches an entry with its path.

    def kind_of(self, line: bytes) -> Kind:
        """What the next line is. The lines of a database have to be asked about in their order."""
        if self.is_over:
            return Kind.BESIDE
        start = line.lstrip(b" \t")[:2]
        if start == b"@@":
            return self._kind_of_command(fields_in(line))
        if start[:1] in (b"", b"\n", b"#"):
            return Kind.BESIDE
        return Kind.ENTRY

    def _kind_of_command(self, words: list[bytes]) -> Kind:
        if words[0] == b"@@end_db":
            self.is_over = True
            return Kind.END
        if words[0] != b"@@db_spec" or PATH_COLUMN not in words:
            return Kind.BESIDE
        self.columns = tuple(words[1:])
        before = self.columns.index(PATH_COLUMN)
        self._path = re.compile(rb"[ \t]*(?:[^ \t\n]+[ \t]+){%d}([^ \t\n]+)" % before)
        return Kind.COLUMNS

    def key_of(self, entry: bytes) -> bytes | None:
        """The key of the path of an entry; None if it has no such field, or no column is known."""
        match = self._path and self._path.match(entry)
        if not match:
            return None
        return key_of(match[1])
