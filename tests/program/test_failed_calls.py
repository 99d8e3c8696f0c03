"""Makes each call go wrong by which the built program opens, closes, reads or writes a file, one
call in a run.

A library that is loaded before the C library (fail_call.c) makes the n-th call of a kind fail, take
nothing or move half of its bytes, for every n. All later calls work again. So a failure that the
program ignores, or a call that it makes once more, shows in its answer. The right answer to each
run is exact: which file could not be opened, in which line of which database reading failed, and
which bytes had gone out before. An undisturbed run closes all that it opens. The program that
writes lines of JSON is tried over a trusted pair too.
"""
from __future__ import annotations

import os
import struct
from collections import Counter
from collections.abc import Callable, Iterator
from typing import NamedTuple

from tests.lib.answer import Answer, difference
from tests.lib.program_test import AnswerTest, slow
from tests.lib.tally import side_by_side
from tests.oracle.files import wanted, wanted_lines
from tests.oracle.session import BAD_DATABASE, BAD_DEVICE, refused
from tests.lib.preload import PreloadTest, run_with
from tests.program.real_files.folder import FILES, NAMES, NEW, OLD, SKIPPING, Folder, names

NOTE = struct.Struct("3l")
OPEN, CLOSE, READ, WRITE = range(1, 5)
KINDS = {OPEN: "opening", CLOSE: "closing", READ: "reading", WRITE: "writing"}
FAILS, DOES_NOTHING, IS_SHORT = range(1, 4)
WAYS = {
    OPEN: [FAILS],
    CLOSE: [FAILS],
    READ: [FAILS, IS_SHORT],
    WRITE: [FAILS, DOES_NOTHING, IS_SHORT],
}
WORDS = {FAILS: "fails", DOES_NOTHING: "takes nothing", IS_SHORT: "is short"}
OUTPUT, ERRORS = 1, 2
NOT_WRITTEN = refused(b"cannot write the report", BAD_DEVICE).errors
LONG, SHOWN = 6000, 3


class Call(NamedTuple):
    kind: int
    descriptor: int
    result: int


class Session(NamedTuple):
    words: list[bytes]
    whole: Answer
    # The calls that it makes undisturbed, and the texts of its files.
    calls: list[Call]
    files: tuple[bytes, ...]


# The label of a session, its words and the texts of its files.
Labelled = tuple[str, list[bytes], tuple[bytes, ...]]


def sessions(folder: bytes) -> Iterator[Labelled]:
    """The sessions: labels, words, and the texts of the configuration and of both databases."""
    texts = {
        "a report of all parts": (OLD, NEW, b""),
        "a report of several pages": (OLD, names(LONG), b"report_grouped=no"),
        "columns that are skipped": (SKIPPING, SKIPPING, b""),
        "an old database that is cut": (OLD[:60], NEW, b""),
        "a new database that is cut": (OLD, NEW[:60], b""),
        "a bad configuration": (OLD, NEW, b"nonsense"),
    }
    for number, (label, (old, new, options)) in enumerate(texts.items()):
        files = Folder(os.path.join(folder, b"%d" % number))
        files.pair(old, new, options)
        with open(files.at("conf"), "rb") as file:
            yield label, files.words(), (file.read(), old, new)
        if not number:
            yield "a check of the configuration", [b"-D", b"-c", files.at("conf")], (b"", b"", b"")
    yield "a usage error", [b"-E"], (b"", b"", b"")


def sessions_of_lines(folder: bytes) -> Iterator[Labelled]:
    """Those of the program of lines, some of which have a trusted pair, so that the texts are those
    of four databases."""
    yield from sessions(folder)
    texts = {
        "lines beside a trusted pair": (OLD, NEW, OLD, NEW),
        "lines of several pages beside a trusted pair": (OLD, names(LONG), SKIPPING, names(LONG)),
        "no change beside a trusted pair": (SKIPPING, SKIPPING, NEW, OLD),
        "a trusted old database that is cut": (OLD, NEW, OLD[:60], NEW),
        "a trusted new database that is cut": (OLD, NEW, OLD, NEW[:60]),
    }
    for number, (label, four) in enumerate(texts.items()):
        files = Folder(os.path.join(folder, b"beside-%d" % number))
        words = files.put(four)
        with open(files.at("conf"), "rb") as file:
            yield label, words, (file.read(), *four)


def opened_as(session: Session, number: int) -> int:
    """Which of the files an opening opens: the configuration, and then all databases by turns."""
    return 0 if number == 1 else 1 + (number - 2) % (len(session.files) - 1)


def file_of(session: Session, index: int) -> tuple[int, int]:
    """Which file the call at an index reads, and how many of its bytes were read before."""
    opened, taken, calls = 0, 0, session.calls
    for number, call in enumerate(calls[:index]):
        if call.kind == OPEN and call.result == calls[index].descriptor:
            opened, taken = sum(1 for before in calls[: number + 1] if before.kind == OPEN), 0
        if call.kind == READ and call.descriptor == calls[index].descriptor:
            taken += call.result
    return opened_as(session, opened), taken


def written_before(calls: list[Call], index: int, descriptor: int) -> int:
    return sum(call.result for call in calls[:index] if call[:2] == (WRITE, descriptor))


def config_of(session: Session) -> bytes:
    return session.words[session.words.index(b"-c") + 1]


def unopened(session: Session, file: int) -> Answer:
    if file == 0:
        return refused(b"cannot read the configuration " + config_of(session), BAD_DEVICE)
    path = os.path.join(os.path.dirname(config_of(session)), FILES[file - 1].encode())
    return refused(b"cannot open the %s database %s" % (NAMES[file - 1], path), BAD_DEVICE)


def unread(session: Session, file: int, taken: int) -> Answer:
    if file == 0:
        return unopened(session, 0)
    line = session.files[file][:taken].count(b"\n") + 1
    return refused(b"%s database:%d: read failed" % (NAMES[file - 1], line), BAD_DEVICE)


def first_fault(session: Session, file: int, answer: Answer) -> Answer:
    """The answer where a call on a file fails: the fault of a database before it comes first."""
    whole = session.whole
    for name in NAMES[: max(file - 1, 0)]:
        if whole.status == BAD_DATABASE and whole.errors.startswith(b"aide: %s database:" % name):
            return whole
    return answer


def answer_where(session: Session, kind: int, number: int, way: int) -> Answer:
    """What is wanted where the call of a kind with a number goes wrong in a way."""
    calls, whole = session.calls, session.whole
    index = [index for index, call in enumerate(calls) if call.kind == kind][number - 1]
    front = whole.output[: written_before(calls, index, OUTPUT)]
    if kind == CLOSE or way == IS_SHORT:
        return whole
    if kind == OPEN:
        file = opened_as(session, number)
        return first_fault(session, file, unopened(session, file))._replace(output=front)
    if kind == READ:
        file, taken = file_of(session, index)
        return first_fault(session, file, unread(session, file, taken))._replace(output=front)
    if calls[index].descriptor == OUTPUT:
        return Answer(front, NOT_WRITTEN, BAD_DEVICE)
    lost = written_before(calls, index, ERRORS)
    return whole._replace(errors=whole.errors[:lost])


def open_at_once(calls: list[Call]) -> tuple[int, int]:
    """How many files were open at most at a time, and how many were left open."""
    at_once, most = 0, 0
    for call in calls:
        at_once += (call.kind == OPEN and call.result >= 0) - (call.kind == CLOSE)
        most = max(most, at_once)
    return most, at_once


class Stumbler(NamedTuple):
    """A program, and the library that lets its calls go wrong."""

    program: bytes
    library: bytes
    # What is wanted of words.
    wanted: Callable[[list[bytes]], Answer]

    def run(
        self, words: list[bytes], kind: int = 0, number: int = 0, way: int = 0
    ) -> tuple[Answer, list[Call]]:
        settings = {"FAIL_KIND": kind, "FAIL_NUMBER": number, "FAIL_WAY": way}
        answer, notes = run_with(self.library, self.program, words, NOTE, "FAIL_NOTES", **settings)
        return answer, [Call(*note) for note in notes]


def try_one(stumbler: Stumbler, session: Session, kind: int, number: int, way: int) -> list[str]:
    answer, _ = stumbler.run(session.words, kind, number, way)
    faults = difference(answer, answer_where(session, kind, number, way))
    return ["%s %d that %s: %s" % (KINDS[kind], number, WORDS[way], fault) for fault in faults]


def try_session(
    stumbler: Stumbler,
    label: str,
    words: list[bytes],
    files: tuple[bytes, ...],
    jobs: int,
    tally: AnswerTest,
) -> Counter[int]:
    """Lets each call of a session go wrong in each way. How many calls of which kind there are."""
    whole, calls = stumbler.run(words)
    tally.check(label, whole, stumbler.wanted(words))
    most, left = open_at_once(calls)
    tally.holds(label + ", open files", most <= len(files) - 1 and left == 0, (most, left))
    session, counts = Session(words, whole, calls, files), Counter(call.kind for call in calls)
    tasks = [
        (kind, number, way)
        for kind in KINDS
        for number in range(1, counts[kind] + 1)
        for way in WAYS[kind]
    ]
    for (kind, _, way), faults in zip(
        tasks, side_by_side(jobs, lambda task: try_one(stumbler, session, *task), tasks)
    ):
        tally.add("%s, a %s that %s" % (label, KINDS[kind], WORDS[way]), faults)
    return counts


def try_calls(stumbler: Stumbler, tried: Iterator[Labelled], jobs: int, tally: AnswerTest) -> None:
    counts: Counter[int] = Counter()
    for label, words, files in tried:
        counts.update(try_session(stumbler, label, words, files, jobs, tally))
    tally.holds("calls of each kind", all(counts[kind] > 1 for kind in KINDS), counts)


@slow
class FailedCallsTest(PreloadTest):
    source = "fail_call.c"

    def test_report(self) -> None:
        stumbler = Stumbler(self.program, self.library, wanted)
        try_calls(stumbler, sessions(self.directory), 2, self)

    def test_lines(self) -> None:
        stumbler = Stumbler(self.lines_program, self.library, wanted_lines)
        try_calls(stumbler, sessions_of_lines(self.directory), 2, self)
