"""What packages' records of this host have of the changes, package by package."""
from __future__ import annotations

from collections.abc import Iterator

from aide_compare.base.escapes import guarded
from aide_compare.base.words import counted
from aide_compare.changes.judged import Judged
from aide_compare.changes.table import Table
from aide_compare.show.digest import shortened_path

MAX_PACKAGE_NAME = 40
MAX_HIGH = 3  # Of each package so many paths of severity high are named.


def files_words(count: int, high: int) -> str:
    files = counted(count, "file")
    if not high:
        return files
    return f"{files}, {high} of severity high"


def high_line(table: Table, package: str, width: int) -> str:
    """The paths of a package's changes of severity high."""
    paths = table.high_paths(package)
    each = width and (width - len("    ")) // len(paths) - len(", ")
    return "    " + ", ".join(shortened_path(path, each) for path in paths)


def recorded_lines(table: Table, limit: int, width: int) -> Iterator[str]:
    """A line for each package, as in "openssl 3.0.17-1: 41 files", and one for the paths of
    severity high if they are few."""
    packages = files = all_high = 0
    for number, (package, count, high) in enumerate(table.packages()):
        if number < limit:
            yield f"  {guarded(package)[:MAX_PACKAGE_NAME]}: {files_words(count, high)}"
            if 0 < high <= MAX_HIGH:
                yield high_line(table, package, width)
            continue
        packages += 1
        files += count
        all_high += high
    if packages:
        yield f"  and {counted(packages, 'package')} more: {files_words(files, all_high)}"


def group_lines(judged: Judged, limit: int, width: int) -> list[str]:
    """The lines under their title, of at most so many packages."""
    if not judged.counts.recorded:
        return []
    title = f"Recorded, as {judged.by} on this host says:"
    return [title, *recorded_lines(judged.table, limit, width)]
