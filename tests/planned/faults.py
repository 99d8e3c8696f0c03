"""How a run's answers are printed, and what they say of openings and of bytes."""
from __future__ import annotations

from tests.oracle.comparison import compared as changes_of
from tests.oracle.configuration import Settings, read
from tests.oracle.database import database_of
from tests.oracle.report import counts_of, report_of

OLD, NEW = "Old", "New"
SIDES = (OLD, NEW)
PATHS = b"database_in=file:/old\ndatabase_new=file:/new\n"
RULE = b"---------------------------------------------------\n"
# The title of each section of entries: after it both databases are opened.
TITLES = [
    title + b" entries:\n" + RULE + b"\n"
    for title in (b"Added", b"Removed", b"Changed", b"Added, removed and changed")
]
TITLES = [b"\n" + title for title in TITLES]
TITLES.append(b"\nDetailed information about changes:\n" + RULE)
# How often each side is opened before anything is written: once to be read whole, and once to be
# counted.
SILENT = 2


def compared(fault: str) -> str:
    return f"Err(Compared({fault}))"


def trusted(fault: str) -> str:
    return f"Err(Trusted({fault}))"


def database(side: str, line: int, kind: str, column: int | None = None) -> str:
    """A fault of a database."""
    return f"Database({database_fault(side, line, kind, column)})"


def database_fault(side: str, line: int, kind: str, column: int | None = None) -> str:
    shown = f"{kind} {{ column: {column} }}" if column else kind
    return f"DbFault {{ side: {side}, line: {line}, kind: {shown} }}"


def opening(side: str) -> str:
    return f"Open({side})"


def changed(side: str) -> str:
    return f"Changed({side})"


def write(written: int) -> str:
    return f"Write {{ written: {written} }}"


def outcome_over(old_text: bytes, new_text: bytes, options: bytes = b"") -> str:
    """What a good run over two databases answers: its counts, and the columns that it skipped as
    bits."""
    old, new = database_of(old_text), database_of(new_text)
    counts = counts_of(changes_of(old.entries, new.entries), settings_of(options))
    told = [f"{kind}: {counts[kind]}" for kind in ("added", "removed", "changed")]
    told.append(f"total: {len(new.entries)}")
    for name, skipped in (("old", old.skipped), ("new", new.skipped)):
        told.append(f"skipped_{name}: {sum(1 << column - 1 for column in skipped)}")
    return "Ok(Outcome { " + ", ".join(told) + " })"


def line_at(text: bytes, count: int) -> int:
    """The line in which a database is after so many bytes of it."""
    return text[:count].count(b"\n") + 1


def settings_of(options: bytes) -> Settings:
    settings = read(b"", PATHS + options, b"", True)
    assert isinstance(settings, dict), settings
    return settings


def report_over(old: bytes, new: bytes, options: bytes) -> tuple[bytes, int]:
    """The report of two databases, and its status."""
    return report_of(database_of(old), database_of(new), [old, new], settings_of(options))


def ends_of_titles(report: bytes) -> list[int]:
    """After how many bytes of a report both databases are opened once more."""
    return [report.index(title) + len(title) for title in TITLES if title in report]


def openings_at(report: bytes, sent: int) -> int:
    """How often a run has opened each side when so many bytes were written."""
    return SILENT + sum(end <= sent for end in ends_of_titles(report))


def overview_of(report: bytes) -> bytes:
    """What comes before the first section."""
    return report[: report.find(b"\n" + RULE)] if b"\n" + RULE in report else report
