"""The words that all commands have: the sides and the kinds of changes, counts, and times."""
from __future__ import annotations

import time
from collections.abc import Iterable

# In the order in which states, lines and pages have them.
SIDES = ("old", "new")
# The pair that a comparison may have beside them.
TRUSTED_SIDES = ("trusted_old", "trusted_new")
KINDS = ("added", "removed", "changed")
SEVERITIES = ("high", "medium", "low")


NEAR = 0.7  # How alike words are, as difflib says it.


def nearest(word: str, words: Iterable[str]) -> str:
    """The one of some words that is most like a word; "" if none is."""
    import difflib

    return next(iter(difflib.get_close_matches(word, list(words), 1, NEAR)), "")


def words_of_side(side: str) -> str:
    """A side for people, as "trusted old"."""
    return side.replace("_", " ")


def date_of(seconds: int) -> str:
    """A time since 1970 as "2026-11-25T12:00:00Z"; a time that has no date as "@" and its
    seconds."""
    try:
        return time.strftime("%Y-%m-%dT%H:%M:%SZ", time.gmtime(seconds))
    except (OverflowError, ValueError, OSError):
        return f"@{seconds}"


def minute_of(seconds: int) -> str:
    """The same for people, such as "2026-11-25 12:00 UTC"."""
    date = date_of(seconds)
    if date.startswith("@"):
        return date
    return f"{date.replace('T', ' ')[: -len(':00Z')]} UTC"


def age_in_words(seconds: float) -> str:
    """How long something has been, in the unit that gives a short number."""
    for name, unit, limit in (("second", 1, 120), ("minute", 60, 120), ("hour", 3600, 72)):
        if seconds < unit * limit:
            return counted(int(seconds // unit), name)
    return counted(int(seconds // 86400), "day")


def words_of_kinds(counts: Iterable[int | None]) -> str:
    """As in "1 added, 2 removed, 3 changed"."""
    return ", ".join(f"{count} {kind}" for count, kind in zip(counts, KINDS))


def counted(number: int, word: str) -> str:
    """A number and a word, which is in the plural unless the number is 1."""
    if number == 1:
        return f"{number} {word}"
    if word.endswith("y") and word[-2] not in "aeiou":
        return f"{number} {word[:-1]}ies"
    return f"{number} {word}s"


def capitalized(text: str) -> str:
    """A text that begins a sentence."""
    return text[:1].upper() + text[1:]


def status_of_counts(counts: tuple[int, int, int]) -> int:
    """The status of a comparison with these counts of what was added, removed and changed."""
    return sum(bit for bit, count in zip((1, 2, 4), counts) if count)
