"""Paths: their keys, by which they are put in order, and patterns.

A key is a text whose order by bytes is the order of the paths, piece by piece. A slash becomes the
byte 1, below every other byte of a key. The bytes 0 to 10 become the byte 2 and a printable one.

A pattern has `*`, `?` and `[..]` within a piece of a path, and `**` for any number of whole pieces.
The work for a path grows with its length times that of the pattern and no faster, since paths come
from hosts that nobody may trust.
"""
from __future__ import annotations

import fnmatch
import re
from collections.abc import Callable, Iterable, Iterator
from functools import cache

from aide_compare.base.ending import Fault, Status
from aide_compare.base.escapes import shown

_ESCAPE = rb"%([0-9A-Fa-f]{2})"
# What is not itself as a field, where a nought at the beginning has a meaning of its own.
_UNUSUAL = rb"\A0|[^!-~]|%"
_LOW_BYTE = re.compile(rb"[\x00-\x0a]")
_RAISED_BYTE = rb"(?s)\x02(.)"
WILD = re.compile(rb"[*?\[\\]")
SLASH = b"\1"  # In a key.
# What fnmatch takes otherwise: an escaped byte, and a class, whose first byte may be any, with its
# sign before that.
TOKEN = rb"(?s)\\(.?)|\[(?:([!^])|(?![!^]))(.[^]]*)\]|\["
RANGE = rb"(?s)(.)-(.)"

# Whether a piece of a path is as one of a pattern.
Test = Callable[[bytes], object]


def unescaped(field: bytes) -> bytes:
    """A path with its escapes decoded; `%` without two hexadecimal digits stands for itself."""
    if b"%" not in field:
        return field
    return re.sub(_ESCAPE, lambda match: bytes([int(match[1], 16)]), field)


def escaped(path: bytes) -> bytes:
    """A path, or the target of a link, as a field of a database."""
    return re.sub(_UNUSUAL, lambda match: b"%%%02X" % match.group()[0], path)


def key_of(field: bytes) -> bytes:
    """The key of a path that is written as a field of a database."""
    return key_of_path(unescaped(field))


def key_of_path(path: bytes) -> bytes:
    """The key of a path whose escapes are decoded already."""
    raised = _LOW_BYTE.sub(lambda match: bytes([2, match.group()[0] + 32]), path)
    return raised.replace(b"/", SLASH)


def path_of(key: bytes) -> bytes:
    """The path that has a key."""
    path = key.replace(SLASH, b"/")
    if b"\2" not in path:
        return path
    return re.sub(_RAISED_BYTE, lambda match: bytes([match[1][0] - 32]), path)


def _token(match: re.Match[bytes]) -> bytes:
    """A byte or a class as fnmatch has it: there is no backslash for it, and ! negates a class."""
    literal = match[1]
    inner = match[3]
    if literal == b"":
        raise ValueError("a backslash is the last byte of a piece")
    if literal and literal in b"*?[":
        return b"[%s]" % literal
    if literal:
        return literal
    if inner is None:
        raise ValueError("a class has no end")
    if any(first > last for first, last in re.findall(RANGE, inner)):
        raise ValueError("a class is not understood")
    if match[2]:  # It is negated.
        return b"[!%s]" % inner
    return b"[%s]" % inner


def _as_fnmatch(piece: bytes) -> bytes:
    """A piece of a pattern as fnmatch has it; a ValueError says why it is none."""
    return re.sub(TOKEN, _token, piece)


@cache
def _compiled(piece: bytes) -> Test:
    """The test of a piece with wildcards. What fnmatch makes of it looks for each text between
    stars once, from left to right."""
    text = _as_fnmatch(piece)
    return re.compile(fnmatch.translate(text.decode("latin-1")).encode("latin-1")).match


def _test(piece: bytes) -> Test | None:
    """The test of a piece of a pattern, None for `**`. It is compiled when a path first needs it:
    no path needs most of those of a table."""
    if piece == b"**":
        return None
    if WILD.search(piece) is None:
        return piece.__eq__
    return lambda text: _compiled(piece)(text)


class Pattern:
    """A pattern over whole paths; a ValueError says why a text is none."""

    def __init__(self, text: bytes) -> None:
        if not text.startswith(b"/"):
            raise ValueError("a path begins with /")
        pieces = text[1:].split(b"/")
        if b"**" in text and any(b"**" in piece and piece != b"**" for piece in pieces):
            raise ValueError("** is a piece of its own, as in /var/log/**")
        if b"[" in text or b"\\" in text:
            for piece in pieces:
                _as_fnmatch(piece)
        self.text = text
        self.pieces = pieces
        # Behind that of the last piece is one that no piece fits.
        self.tests = [*map(_test, pieces), frozenset().__contains__]

    def reached(self, place: int) -> Iterator[int]:
        """A place in the pattern, and those behind it that a path is at as well: `**` may mean no
        piece, but at the end."""
        yield place
        while place + 1 < len(self.pieces) and self.tests[place] is None:
            place += 1
            yield place

    def after(self, places: Iterable[int], piece: bytes) -> tuple[int, ...]:
        """The places in the pattern where a path may be, one more piece behind some places."""
        found: set[int] = set()
        for place in places:
            test = self.tests[place]
            if test is None:
                found.update((place, place + 1))
            elif test(piece):
                found.update(self.reached(place + 1))
        return tuple(found)

    def matches(self, pieces: list[bytes]) -> bool:
        """Whether the pattern means the pieces of a path."""
        places = tuple(self.reached(0))
        for piece in pieces:
            places = self.after(places, piece)
        return len(self.pieces) in places


def pattern_of(text: bytes, place: str) -> Pattern:
    """The pattern that stands in a line of a file, or in an option."""
    try:
        return Pattern(text)
    except ValueError as fault:
        raise Fault(Status.USAGE, f"{place}: {fault}: {shown(text, 200)}")
