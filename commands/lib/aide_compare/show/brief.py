"""What people read first of a comparison, on a screen and in a mail: packages that came or went,
what is open, the most severe first, and then what is recorded, package by package."""
from __future__ import annotations

from collections.abc import Iterable, Iterator, Sequence

from aide_compare.base.escapes import encoded, guarded
from aide_compare.base.words import SEVERITIES
from aide_compare.changes.judged import Judged
from aide_compare.lines.change import Counts, Standing
from aide_compare.show.digest import SCREEN, Room, entry_line, in_directory, open_lines
from aide_compare.show.entry import entry_words
from aide_compare.show.groups import MAX_PACKAGE_NAME, group_lines

WIDTH = 100  # Of lines with names, if lines have no limit.
MIN_NAME = 3  # With the comma and the blank behind it.


def silent_lines(counts: Counts) -> list[str]:
    """As in "Silent: 460 same, 8 trusted, left out: 3 of 512 changes"; none if no change is."""
    silent = (Standing.SAME, Standing.TRUSTED)
    parts = [f"{counts.of(each)} {each.value}" for each in silent if counts.of(each)]
    if counts.left_out:
        parts.append(counts.left_out_words())
    if not parts:
        return []
    return [f"Silent: {', '.join(parts)}"]


def names_lines(title: str, names: Sequence[str], room: Room) -> list[str]:
    """As many names of packages as there are lines for, and how many more there are."""
    from textwrap import wrap  # A millisecond that most runs do not need.

    words = [guarded(name)[:MAX_PACKAGE_NAME] for name in names]
    count = min(len(words), room.names * WIDTH // MIN_NAME)
    while True:
        text = f"{title}: {', '.join(words[:count])}"
        if count < len(words):
            text += f", and {len(words) - count} more"
        lines = wrap(text, room.width or WIDTH, subsequent_indent="  ", break_on_hyphens=False)
        if len(lines) <= room.names or count == 1:
            return lines[: room.names]
        count -= 1 + count // 64


def brief(judged: Judged, room: Room, warnings: Sequence[str] = (), height: int = 0) -> list[str]:
    """The lines, with warnings behind the counts: at most so many, without a height any number."""
    counts = judged.counts
    head = [counts.words(), *warnings]
    for title, names in judged.named.items():
        head += names_lines(title, names, room)
    end = [group_lines(judged, room.groups, room.width), silent_lines(counts)]
    if height:
        used = len(head) + sum(len(part) + 1 for part in end if part) + 1 + len(SEVERITIES)
        room = room._replace(height=max(height - used, 1))

    def lines_of(places: Iterable[int]) -> Iterator[str]:
        for place in places:
            change = judged.read(place)
            words = entry_words(change, member=judged.members.get(change.path, ""))
            yield entry_line(change, words, "  ", room.width)

    lines = head
    for part in (list(open_lines(judged.table, room, in_directory, lines_of)), *end):
        if part:
            lines += ["", *part]
    return lines


def brief_of(judged: Judged | None) -> bytes:
    """The bytes of what people read first; nothing if the changes were not judged."""
    if judged is None:
        return b""
    return encoded("\n".join([*brief(judged, SCREEN), "", ""]))
