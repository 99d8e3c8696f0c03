"""What people read of changes that nobody has judged: how many there are, and the first paths."""
from __future__ import annotations

from collections import Counter
from collections.abc import Iterator
from contextlib import suppress
from textwrap import wrap

from aide_compare.base.words import KINDS
from aide_compare.compare.comparison import Comparison
from aide_compare.lines.reader import reader_over
from aide_compare.show.digest import shortened_path

WIDTH = 80
HEIGHT = 80
DIRECTORY_SHARE = 5  # So many paths of one directory.


def paths_of(comparison: Comparison) -> Iterator[tuple[str, bytes]]:
    """The kinds and paths of changes, as far as these are there and can be read: lines that were
    cut have no end, and why nobody has judged the changes may be a line."""
    with suppress(Exception):
        for change in reader_over(comparison.known_lines().fd).changes():
            yield change.kind, change.path


def first_paths(comparison: Comparison, limit: int) -> list[str]:
    """The lines of the first paths, those that were removed or changed first, and of each directory
    a few."""
    listed: Counter[tuple[str, bytes]] = Counter()
    lines: dict[str, list[str]] = {"changed": [], "removed": [], "added": []}
    for kind, path in paths_of(comparison):
        place = (kind, path.rpartition(b"/")[0])
        if len(lines[kind]) < limit and listed[place] < DIRECTORY_SHARE:
            listed[place] += 1
            line = f"  {kind:<7}  "
            lines[kind].append(line + shortened_path(path, WIDTH - len(line)))
    return [line for each in lines.values() for line in each][:limit]


def unjudged_lines(comparison: Comparison, height: int = HEIGHT) -> list[str]:
    """At most so many lines; none if the program has found no change."""
    if not (comparison.lines and comparison.lines.end.changes):
        return []
    end = comparison.lines.end
    numbers = ", ".join(f"{count} {kind}" for count, kind in zip(end.kinds, KINDS))
    title = f"The databases differ: {numbers}."
    title += " The severity is not known, because the changes could not be judged."
    head = [*wrap(title, WIDTH), ""]
    lines = first_paths(comparison, height - len(head) - 1)
    if end.changes > len(lines):
        lines.append(f"  and {end.changes - len(lines)} more")
    return [*head, *lines]
