"""Rows in a temporary database of SQLite: of any number of them little is in memory. The file of
the database has no name, and is made only if the rows have no room in memory."""
from __future__ import annotations

from collections.abc import Iterable, Iterator
from contextlib import contextmanager
from typing import Any

from aide_compare.base.ending import DeviceFault
from aide_compare.base.files import private_place

PAGE = 4096
# So many bytes are in memory, and so many at most are in the file. More are a Fault.
MAX_CACHED = 1 << 20
MAX_ROWS_BYTES = 16 << 30


class Rows:
    """Tables, by statements and questions of SQL. Each failure, such as a full disk, is a Fault."""

    def __init__(self, schema: str, max_bytes: int = MAX_ROWS_BYTES) -> None:
        # 8 ms that a run without a difference does not need.
        import sqlite3

        self.error = sqlite3.Error
        with self._error_as_fault():
            self._database = sqlite3.connect("", isolation_level=None)
        for setting in (
            "journal_mode = off",
            "synchronous = off",
            f"page_size = {PAGE}",
            f"max_page_count = {max_bytes // PAGE}",
            f"cache_size = -{MAX_CACHED >> 10}",
        ):
            self.do(f"pragma {setting}")
        self.do("begin")
        self.do(schema)

    @contextmanager
    def _error_as_fault(self) -> Iterator[None]:
        try:
            yield
        except self.error as error:
            raise DeviceFault(f"cannot keep rows in {private_place()}: {error}") from None

    def do(self, statement: str, *values: object) -> None:
        with self._error_as_fault():
            self._database.execute(statement, values)

    def do_all(self, statement: str, rows: Iterable[tuple[object, ...]]) -> None:
        """Does the same for each row."""
        with self._error_as_fault():
            self._database.executemany(statement, rows)

    def ask(self, question: str, *values: object) -> Iterator[Any]:
        """Yields the rows of an answer."""
        with self._error_as_fault():
            yield from self._database.execute(question, values)
