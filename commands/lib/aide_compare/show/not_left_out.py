"""Why a change is not left out though a line of the list names it. The proved program decides that;
here are its reasons in words, for people who wonder."""
from __future__ import annotations

from collections.abc import Iterator
from itertools import islice
from typing import TYPE_CHECKING

from aide_compare.base.ending import Fault
from aide_compare.base.escapes import shown
from aide_compare.base.paths import Pattern, pattern_of
from aide_compare.lines.change import Standing, change_of, parsed
from aide_compare.lines.rights import ROOT, Rights, rights_of

if TYPE_CHECKING:
    from aide_compare.changes.judged import Judged
    from aide_compare.compare.exclusions import Exclusions, Line
    from aide_compare.lines.change import Fields

TO_READ = (Standing.OPEN.value, Standing.RECORDED.value)
SETTINGS = b"/etc/aide-compare"
LONGEST_PATH = 3839
FOR_PROGRAMS = b"programs("
MODE_UNKNOWN = "its mode is not known"
DEVICE = "a device that somebody may open"
PROGRAM = "a program, and the line does not begin with programs(REASON)"
IN_ORDER = ("set-user-ID", "set-group-ID", "capabilities", DEVICE, MODE_UNKNOWN, PROGRAM)
OF_PAIR = "a trusted pair has the same change, and none silences what decides on reports"
MAX_CHANGES = 10000  # That are looked at.
MAX_NOTES = 20
SET_USER_ID, SET_GROUP_ID = 0o4000, 0o2000
EXECUTABLE, ANY_ACCESS, WRITABLE = 0o111, 0o777, 0o022


def _pattern(line: Line) -> Pattern | None:
    """The pattern of a line; None if it has none, or one that is written otherwise here."""
    text = line.text.strip()
    if text.startswith(FOR_PROGRAMS):
        text = text.partition(b")")[2].strip()
    try:
        return pattern_of(text, line.place)
    except Fault:
        return None


def _names(pattern: Pattern, path: bytes) -> bool:
    """Whether a pattern names a path. No wildcard covers a dot at the beginning of a piece."""
    pieces = path[1:].split(b"/")
    dotted = [test for piece, test in zip(pattern.pieces, pattern.tests) if piece[:1] == b"."]
    for piece in pieces:
        if piece[:1] == b"." and not any(test and test(piece) for test in dotted):
            return False
    return pattern.matches(pieces)


def _reasons_of(side: Rights, names_programs: bool) -> Iterator[str]:
    """Why an entry is never left out."""
    mode = side.permissions
    if mode is None:
        yield MODE_UNKNOWN
        return
    if mode & SET_USER_ID:
        yield "set-user-ID"
    if mode & SET_GROUP_ID and not side.is_directory:
        yield "set-group-ID"
    if side.has_capabilities:
        yield "capabilities"
    if side.is_device and (mode & ANY_ACCESS or side.user != ROOT):
        yield DEVICE
    if side.type == "File" and mode & EXECUTABLE and not names_programs:
        yield PROGRAM


def _reason_of_sides(old: Rights | None, new: Rights | None, names_programs: bool) -> str:
    """The first reason of either side; "" if nothing is known that prevents it."""
    found = {text for side in (old, new) if side for text in _reasons_of(side, names_programs)}
    return next((text for text in IN_ORDER if text in found), "")


def _reason_of_path(path: bytes) -> str:
    if path == SETTINGS or path.startswith(SETTINGS + b"/"):
        return "it decides on reports"
    if len(path) > LONGEST_PATH:
        return "its path is too long"
    return ""


def _reason_of_directory(old: Rights | None, new: Rights | None) -> str:
    """The same of who may write a directory."""
    if new is None or not new.is_directory:
        return ""
    was_there = old is not None and old.is_directory
    if old is not None and was_there and old.user != new.user:
        return "a directory with another owner"
    if new.permissions and new.permissions & WRITABLE:
        return "a directory that users other than its owner can write"
    return ""


class Reasons:
    """The lines of a list with their patterns, and why they leave out no more."""

    def __init__(self, exclusions: Exclusions | None) -> None:
        lines = exclusions.lines if exclusions else ()
        pairs = [(line, _pattern(line)) for line in lines]
        self.patterns = [(line, pattern) for line, pattern in pairs if pattern]

    def of(self, fields: Fields) -> str:
        """Which line names a change that is not left out, and why it stays; "" if no line does, or
        nobody here knows why."""
        path = change_of(fields).path
        for line, pattern in self.patterns:
            if _names(pattern, path):
                if fields.get("same_as") == "trusted":
                    return f"{line.words()} names it, but {OF_PAIR}"
                names_programs = line.text.strip().startswith(FOR_PROGRAMS)
                old, new = rights_of(fields)
                reasons = [_reason_of_sides(old, new, names_programs)]
                reasons += [_reason_of_directory(old, new), _reason_of_path(path)]
                for reason in filter(None, reasons):
                    return f"{line.words()} names it, but it is never left out: {reason}"
        return ""

    def notes(self, judged: Judged) -> Iterator[str]:
        """A line for each of some changes that are not left out though the list names them."""
        count = 0
        for line, marks in islice(judged.lines(), MAX_CHANGES if self.patterns else 0):
            if marks.standing not in TO_READ:
                continue
            fields = parsed(line)
            reason = self.of(fields)
            if reason:
                count += 1
                if count <= MAX_NOTES:
                    yield f"{shown(change_of(fields).path, 200)}: {reason}"
        if count > MAX_NOTES:
            yield f"and {count - MAX_NOTES} more that the list names are not left out"
