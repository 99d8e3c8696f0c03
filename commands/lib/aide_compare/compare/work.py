"""The one engine: two databases made ready, the proved program run over them, and its answer
checked."""
from __future__ import annotations

import json
import os
import time
from collections.abc import Iterator, Sequence
from functools import partial

from aide_compare.base.ending import DeviceFault, Fault, OSErrorAsFault, Status, write_all
from aide_compare.base.escapes import shown
from aide_compare.base.files import nameless, private_place
from aide_compare.base.program import LINES_PROGRAM, Answer, find_installed
from aide_compare.base.words import SIDES, TRUSTED_SIDES, age_in_words, counted, words_of_side
from aide_compare.compare.asking import Settings, ask_for_lines, odd_answer, settings_of
from aide_compare.compare.comparison import Comparison, Lines, Refusal, ComparisonInput
from aide_compare.compare.configuration import ConfigurationTexts, configuration_in
from aide_compare.compare.hints import column_names, column_notes, equal_notes, hints_of
from aide_compare.compare.hints import order_notes
from aide_compare.compare.line_room import LineRoom
from aide_compare.compare.unpack import Opened, copy_opened, open_database
from aide_compare.lines.change import ODD
from aide_compare.lines.reader import end_of

MAX_CLOCKS_DIFFER = 600
MIN_LINES = 1 << 12
END_BYTES = 1 << 12  # The last line contains only digests, columns and counts.


def open_databases(comparison: Comparison) -> Sequence[Opened]:
    """The databases, opened, unless there are copies already; a Fault if they cannot be compared.
    The comparison itself may be done with the rights of another user."""
    request = comparison.request
    config = configuration_in(request.configuration)
    comparison.texts = ConfigurationTexts(config, os.fsencode(request.after))
    if request.copies:
        return ()
    names = (request.old, request.new)
    opened = [open_database(*each) for each in zip(SIDES, names)]
    check_age(opened[1], request.max_age)
    opened += [open_database(*each) for each in zip(TRUSTED_SIDES, request.trusted)]
    refuse_one_file(opened)
    return opened


def compare_opened(comparison: Comparison, opened: Sequence[Opened]) -> None:
    """Compares the databases. What ends it is told by the status and the fault, never by an
    exception."""
    try:
        for database in opened:
            comparison.copies[database.side] = copy_opened(database, comparison.request.max_size)
        comparison.copies.update(comparison.request.copies)
        lines = read_lines(comparison)
        comparison.notes += column_notes(comparison.skipped)
        comparison.notes += order_notes(comparison.copies)
        comparison.notes += equal_notes(comparison.copies)
        if any(comparison.texts) and lines.end.others == 0:
            comparison.notes += ignored_notes(settings_of(comparison.texts))
        comparison.lines = lines
        comparison.time = int(time.time())
    except Exception as error:
        comparison.fail(error)


def refusal_of(comparison: Comparison, answer: Answer) -> Fault:
    """The program has refused the texts, the list or the databases."""
    exclusions = comparison.request.exclusions
    fault = exclusions.fault_in(answer.errors) if exclusions else None
    if fault is not None:
        return fault  # It says it with the file.
    path = comparison.request.configuration
    return Refusal(answer, hints_of(answer.errors, comparison.texts, path, comparison.copies))


def last_line_of(target: int, size: int) -> bytes:
    """The last line of a file of this size; nothing if it has no end."""
    text = os.pread(target, END_BYTES, max(size - END_BYTES, 0))
    if not text.endswith(b"\n"):
        return b""
    return text[:-1].rpartition(b"\n")[2]


def read_lines(comparison: Comparison) -> Lines:
    """The lines of aide_lines. Beyond a limit only what may be root's is kept."""
    request = comparison.request
    target = request.target
    words = "cannot keep the changes"
    if target is None:
        target = nameless()
        words += f" in {private_place()}"
    room = LineRoom(max(request.max_report, MIN_LINES), partial(write_all, target))

    def take(block: bytes) -> None:
        with OSErrorAsFault(words):
            room.take(block)

    exclusions = request.exclusions
    without = exclusions.text if exclusions else b""
    databases = {side: copy.fd for side, copy in comparison.copies.items()}
    answer = ask_for_lines(comparison.texts, databases, without, take)
    if answer.status > 7:
        raise refusal_of(comparison, answer)
    comparison.errors = answer.errors
    try:
        fields = json.loads(room.end or last_line_of(target, room.size))
        end = end_of(fields)
        digests = {side: str(fields[side]["sha256"]) for side in databases}
        skipped = {side: fields[side]["skipped"] for side in SIDES if fields[side]["skipped"]}
        names = {side: column_names(databases[side], skipped[side]) for side in skipped}
        if end.status != answer.status:
            raise ValueError
    except ODD:
        raise odd_answer(find_installed(LINES_PROGRAM), answer) from None
    comparison.status = answer.status
    comparison.skipped = names
    # The program has read what it has compared, so it knows the digests of whole databases.
    for side, copy in comparison.copies.items():
        copy.digest = copy.digest or digests[side]
    if exclusions:
        comparison.warnings += exclusions.warnings(comparison.copies["old"])
    if room.end:
        with OSErrorAsFault(words):
            room.put(room.end_of_kept(fields, end))
    return Lines(target, room.is_cut, end, room.others)


def compare(request: ComparisonInput) -> Comparison:
    """Compares two databases. What ends it is told by the status and the fault, never by an
    exception."""
    comparison = Comparison(request)
    try:
        compare_opened(comparison, open_databases(comparison))
    except Exception as error:
        comparison.fail(error)
    return comparison


def ignored_notes(settings: Settings) -> Iterator[str]:
    """How many attributes the options of a person leave out of a comparison: it may be silent only
    for that."""
    for option, names in settings.items():
        if option.startswith("report_ignore_") and names:
            yield f"{option} leaves {counted(len(names), 'attribute')} out of the comparison"


def refuse_one_file(opened: Sequence[Opened]) -> None:
    """Refuses one file, by whatever names, as the new database and as the old or the trusted new
    one: nothing would ever be reported."""
    old, new, *trusted = opened
    for other in (old, *trusted[1:]):
        if os.path.sameopenfile(new.fd, other.fd):
            sides = f"the {words_of_side(other.side)} and as the new database"
            raise Fault(Status.CONFIGURATION, f"one file as {sides}: {shown(new.path)}")


def check_age(opened: Opened, limit: int) -> None:
    """Refuses a new database that is older than a limit in seconds, or minutes newer than now: AIDE
    may no longer write one."""
    if not limit:
        return
    if opened.written is None:
        why = "is not a regular file, so --max-age does not know its age"
        raise DeviceFault(f"{opened.words} {why}")
    age = int(time.time() - opened.written)
    words = age_in_words(abs(age))
    if age < -MAX_CLOCKS_DIFFER:
        why = f"was written {words} in the future: is a clock wrong?"
        raise DeviceFault(f"{opened.words} {why}")
    if age > limit:
        why = f"is {words} old, more than --max-age allows: does AIDE still run?"
        raise DeviceFault(f"{opened.words} {why}")
