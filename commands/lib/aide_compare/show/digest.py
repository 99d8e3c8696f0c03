"""Which open changes a text lists if it has no room for all, and how it counts the others: one rule
for the screen, for a mail, and for the report of many hosts.

The order is that of changes/table.py. Each severity and each group of owners has a share of the
lines, so that nobody but root pushes root's changes out of sight, and what some leave goes to the
others, in their order. A user, or a host of many, has a share too: what it has
beyond that comes after all others. What is not listed is counted.
"""
from __future__ import annotations

import re
from collections import Counter
from collections.abc import Callable, Iterable, Iterator, Sequence
from typing import Any, NamedTuple

from aide_compare.base.escapes import shown
from aide_compare.base.paths import path_of
from aide_compare.base.rows import Rows
from aide_compare.base.words import SEVERITIES
from aide_compare.changes.table import OF_CHANGES, Questions
from aide_compare.lines.change import Change

MAX_LETTERS = 400  # Of a path in a line of any width.
MIN_WIDTH = 24  # Of a path, however little room there is.
# What a line without room leaves out first of a new entry, whose mode says more.
SIZE = " [0-9]+ bytes$"

# The words, in so many columns, for a group by which the changes that are not listed are counted.
Names = Callable[[Any, int], str]


class Room(NamedTuple):
    """What a text has room for."""

    # How many lines the changes of a severity have at least: those of root, of services, and of all
    # others.
    shares: tuple[tuple[int, int, int], ...]
    few: tuple[int, int, int]  # By severity, how many lines of one directory there are at most.
    first: int  # So many of each group come before what all have more.
    user: int  # How many lines a user has before all others.
    named: int  # How many lines count what is not listed of one severity and one group.
    groups: int = 0  # How many packages are listed of what is recorded.
    names: int = 0  # How many lines there are for the names of packages under one title.
    questions: Questions = OF_CHANGES
    height: int = 0  # How many lines there are; 0: those of the shares, and no more.
    width: int = 0  # Of a line; 0: without a limit.


SCREEN = Room(
    shares=((2000, 100, 100), (200, 100, 100), (200, 100, 100)),
    few=(2000, 20, 20),
    first=5,
    user=50,
    named=5,
    groups=40,
    names=100,
)
MAIL = Room(
    shares=((24, 4, 4), (6, 2, 2), (1, 1, 1)),
    few=(80, 80, 5),
    first=5,
    user=10,
    named=1,
    groups=6,
    names=10,
    width=80,
)


class Part(NamedTuple):
    """The open changes of one severity and one group of owners: the places of those that are
    listed, and the words that count the others."""

    level: int  # The place of the severity in SEVERITIES.
    places: list[int]
    rest: list[str]


def rooms_of(limit: int, *steps: Sequence[int]) -> list[int]:
    """How much room each of some has, such as its share, and then its size: in each step the first
    ones get as much as they need, if it is left."""
    rooms = [0] * len(steps[0])
    for step in steps:
        for place, wanted in enumerate(step):
            more = max(0, min(limit, wanted - rooms[place]))
            rooms[place] += more
            limit -= more
    return rooms


def in_directory(key: bytes, width: int) -> str:
    """The words for a directory of which changes are counted."""
    return f"in {shortened_path(path_of(key), width and width - len('in '))}"


def digest(table: Rows, room: Room, names: Names) -> Iterator[Part]:
    """The parts of the open changes that there is room for."""
    questions = room.questions
    parts = list(table.ask(questions.sizes.format(first=room.first, named=room.named)))
    sizes = [size for _, _, size, _ in parts]
    shares = [min(size, room.shares[level][owners]) for level, owners, size, _ in parts]
    height = room.height or sum(shares)
    at_least = [1] * len(parts)  # Who has no share left is counted all the same.
    rooms = rooms_of(height, at_least, shares, [first for _, _, _, first in parts], sizes)
    for (level, owners, size, _), lines in zip(parts, rooms):
        if not lines:
            continue
        if size > lines:
            lines = max(lines - room.named, 0)
        places = chosen(table, level, owners, lines, room)
        table.do_all(questions.turn, zip(places))
        rest = list(rest_words(table, level, owners, size - len(places), room, names))
        table.do_all(questions.turn, zip(places))
        yield Part(level, places, rest)


def open_lines(
    table: Rows, room: Room, names: Names, lines_of: Callable[[Iterable[int]], Iterator[str]]
) -> Iterator[str]:
    """The lines for the open changes that there is room for, each severity under its title."""
    last = None
    for part in digest(table, room, names):
        if part.level != last:
            yield f"Open, severity {SEVERITIES[part.level]}:"
        last = part.level
        yield from lines_of(part.places)
        yield from (f"  {words}" for words in part.rest)


def chosen(table: Rows, level: int, owners: int, limit: int, room: Room) -> list[int]:
    """The places of the changes of a part that are listed, at most so many."""
    first: list[int] = []
    more: list[int] = []  # Beyond the first ones of a directory.
    later: list[int] = []  # Of users who have had their lines.
    later_more: list[int] = []
    spent: Counter[object] = Counter()
    turns: Counter[object] = Counter()
    for place, user, group in table.ask(room.questions.in_order, level, owners):
        if len(first) == limit:
            break
        # Not of root, and not of hosts.
        is_later = bool(user) and spent[user] >= room.user
        turn = (group, is_later)
        is_full = is_later and len(later) == limit
        if is_full or turns[turn] == room.few[level]:
            continue
        turns[turn] += 1
        spent[user] += 1
        is_first = turns[turn] <= room.first
        if is_later:
            part = later if is_first else later_more
        else:
            part = first if is_first else more
        if len(part) < limit:
            part.append(place)
    return [*first, *more, *later, *later_more][:limit]


def rest_words(
    table: Rows, level: int, owners: int, left: int, room: Room, names: Names
) -> Iterator[str]:
    """How many changes of a part are not listed, and where most of them are, in a few lines."""
    most = table.ask(room.questions.most, level, owners, room.named)
    for number, (group, count) in enumerate(most, 1):
        words = f"and {count} more "
        if number == room.named and count < left:
            words = f"and {left} more, {count} of them "
            count = left
        yield words + names(group, room.width and room.width - len("  ") - len(words))
        left -= count
    if left:
        yield f"and {left} more"  # They are in no table.


def shortened(text: str, width: int) -> str:
    """A text in so many columns, without its middle if it is longer."""
    if len(text) <= width:
        return text
    end = (width - len("...")) // 2
    return f"{text[:end]}...{text[-end:]}"


def shortened_path(path: bytes, width: int) -> str:
    """A path that is escaped, in so many columns, or in a line of any width."""
    return shortened(shown(path, 4096), max(width or MAX_LETTERS, MIN_WIDTH))


def entry_line(change: Change, words: str, begin: str, width: int) -> str:
    """As in "  changed  /usr/bin/ls: content, mode -rwxr-xr-x -> -rwsr-xr-x", after some beginning,
    and with those words that fit."""
    line = f"{begin}{change.kind:<7}  "
    line += shortened_path(change.path, width and width - len(line))
    separator = ": "
    for word in words.split(", "):
        room = width - len(line) - len(separator)
        if width and len(word) > room:
            word = re.sub(SIZE, "", word)
        if not word or (width and len(word) > room):
            break
        line += separator + word
        separator = ", "
    return line
