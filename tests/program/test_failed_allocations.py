"""Makes each allocation of the built program fail in turn, over whole sessions.

A library that is loaded before the C library (fail_allocation.c) refuses the n-th malloc or
realloc, for every n until the session asks for no more: only the n-th, and the n-th with all later
ones if there are any then. After each refusal the program has to end with status 22, the one line
`aide: out of memory` and no output. Without a refusal it answers what the definitions say.

Two kinds of calls may be refused without an effect: those of the C library itself, and those of a
command line that is not understood. There the parser looks for names that are close, which are
never printed. The program of lines first asks a parser that knows a trusted pair and no
--config-check.

Another program, crates/aide_in_memory, runs sessions over files in memory. Each call that is
refused memory has to say so, and is made once more. So with one refusal the program has to print
what is stored beside it; with all later ones refused too it ends with 22 behind a front of that.
"""
from __future__ import annotations

import os
import struct
from collections import Counter
from collections.abc import Callable, Iterator
from typing import NamedTuple

from tests.lib.answer import Answer, difference
from tests.lib.program_test import AnswerTest, new_seed, slow
from tests.lib.scratch import TOP
from tests.lib.tally import side_by_side
from tests.oracle.files import wanted, wanted_lines
from tests.oracle.session import NO_MEMORY, USAGE, refused
from tests.lib.preload import PreloadTest, run_with
from tests.program.random_sessions import Make, make_session, make_session_beside
from tests.program.real_files.folder import NEW, OLD, SKIPPING, Folder, names

SESSIONS = 20  # Random ones.
NOTES = struct.Struct("3l")
STARVED = refused(b"out of memory", NO_MEMORY)
# The calls of a session in memory that take memory, and how many of their allocations fail at
# least.
IN_MEMORY = {
    b"push": 70,
    b"add": 20,
    b"read_words": 300,
    b"read_line_words": 250,
    b"point": 10,
    b"session": 500,
    b"lines_session_on": 400,
}
# What comes before the one call whose command line is not understood: it may feel no refusal.
NOT_UNDERSTOOD = b"a trusted pair in part:\njob: no comparison\n"
WAYS: dict[str, Callable[[int], int]] = {
    "only one allocation fails": lambda first: first,
    "one allocation and all later ones fail": lambda first: 2**31 - 1,
}
SHOWN = 3
# The label of a session and its words.
Labelled = tuple[str, list[bytes]]
NAME_LIMIT, PATH_LIMIT, FOLDER_NAME = 64, 4095, b"f" * 200


class Refusal(NamedTuple):
    """The answer of a run, how often it asked for memory, and how often that was refused: to the
    code of the repository, and to others."""

    answer: Answer
    calls: int
    own: int
    others: int


class Refuser(NamedTuple):
    """A program, and the library that refuses it memory."""

    program: bytes
    library: bytes
    # What is wanted of words over real files.
    wanted: Callable[[list[bytes]], Answer] = wanted
    # An option that one of its parsers does not know.
    unknown: bytes = b""

    def run(self, words: list[bytes], first: int = 0, last: int = 0) -> Refusal:
        """What the program answers where the calls for memory with these numbers are refused, and
        what was counted."""
        given = (self.library, self.program, words, NOTES, "GROWTHS_NOTES")
        answer, notes = run_with(*given, GROWTHS_FIRST=first, GROWTHS_LAST=last)
        return Refusal(answer, *(notes[0] if notes else (0, 0, 0)))


def faults_of(refusal: Refusal, whole: Answer, is_understood: bool) -> list[str]:
    """What is not as wanted of a run in which memory was refused."""
    if not refusal.own + refusal.others:
        return ["no memory was refused"] + difference(refusal.answer, whole)
    may_go_on = not refusal.own or not is_understood
    return difference(refusal.answer, whole if may_go_on and refusal.answer == whole else STARVED)


def faults_of_whole(free: Refusal, whole: Answer) -> list[str]:
    """What is not as wanted of a run in which all memory was there."""
    faults = ["memory was refused"] if free.own + free.others else []
    faults += [] if free.calls else ["no memory was asked for"]
    return faults + difference(free.answer, whole)


def try_session(refuser: Refuser, words: list[bytes]) -> dict[str, list[str]]:
    """The faults of a session by what was refused."""
    whole = refuser.wanted(words)
    free = refuser.run(words)
    is_understood = whole.status != USAGE and refuser.unknown not in words
    found: dict[str, list[str]] = {way: [] for way in WAYS}
    found["nothing refused"] = faults_of_whole(free, whole)
    for first in range(1, free.calls + 1):
        for way, last_of in WAYS.items():
            refusal = refuser.run(words, first, last_of(first))
            faults = faults_of(refusal, whole, is_understood)
            found[way] += [f"growth {first}: {fault}" for fault in faults]
            if refusal.calls == first:
                break  # It asks for no more memory, so the other way does the same.
    for way, last_of in WAYS.items():
        later = refuser.run(words, free.calls + 1, last_of(free.calls + 1))
        found[way] += faults_of_whole(later, whole)
    return found


def definitions_of_each_length() -> bytes:
    """A configuration with variables, blocks and groups with names of each length that is taken."""
    lines = [b"Base = p", b"@@define FIRST s"]
    for length in range(1, NAME_LIMIT + 1):
        variable, group = b"v" * length, b"g" * length
        lines += [
            b"@@define %s %s@@{FIRST}" % (variable, b"x" * length),
            b"@@if defined " + variable,
            b"%s = Base+@@{FIRST}-n" % group,
            b"/%s@@{%s} %s" % (group, variable, group),
            b"@@else",
            b"no statement",
            b"@@endif",
        ]
        lines += [b"@@undef " + variable] if length % 3 == 0 else []
    return b"\n".join(lines) + b"\n"


def long_sessions(top: bytes) -> Iterator[Labelled]:
    """Many definitions, and long words, configurations and paths."""
    folder = Folder(os.path.join(top, b"long"))
    folder.pair(options=definitions_of_each_length())
    conf, words = folder.at("conf"), folder.words()
    checked = [b"-D", b"-c", conf]
    yield "many words", words + [b"word"] * 40
    yield "long words", checked + [b"-B", b"#" * 9000, b"-A", b"\n" * 30000]
    defining = [b"-B", b"@@define A x", b"-A", b"mine = gggg+p"]
    yield "many definitions, checked", checked + defining
    yield "many definitions, compared", words + [b"-A", b"report_ignore_changed_attrs=gg"]
    yield "a fault behind many definitions", words + [b"-A", b"mine = nope"]
    folder = Folder(os.path.join(top, b"lines"))
    folder.pair(SKIPPING, SKIPPING, (b"/a line without effect @@{A}%s\n" % (b" word" * 54)) * 100)
    conf, words = folder.at("conf"), folder.words()
    yield "a long configuration", words + [b"-B", b"@@define A x"]
    yield "a long configuration that is not there", [b"-E", b"-c", conf + b"\\\n" + b"n" * 4000]
    deep = top
    while len(deep) + len(FOLDER_NAME) + len(b"/conf") < PATH_LIMIT - len(FOLDER_NAME):
        deep = os.path.join(deep, FOLDER_NAME)
    words = Folder(deep).put([OLD, NEW])
    yield "long paths", words
    after = b"database_new=file:%s/none" % deep
    yield "a database that is not there, on a long path", words + [b"-A", after]


def random_sessions(
    top: bytes, seed: int, name: bytes = b"random", make: Make = make_session
) -> Iterator[Labelled]:
    for number in range(SESSIONS):
        folder = os.path.join(top, b"%s-%d" % (name, number))
        os.mkdir(folder)
        yield "seed %d, %s session %d" % (seed, name.decode(), number), make(seed, number, folder)


def long_sessions_beside(top: bytes) -> Iterator[Labelled]:
    """Trusted databases on long paths, and of many names."""
    folder = Folder(os.path.join(top, b"beside", FOLDER_NAME, FOLDER_NAME))
    words = folder.put([OLD, NEW, names(3000), SKIPPING])
    yield "beside a long trusted database", words
    yield "beside no trusted database", words[:-1] + [words[-1] + b"x" * 200]
    yield "a trusted pair in part", words[:5]


def sessions(top: bytes, seed: int) -> Iterator[Labelled]:
    """The labels and words of all sessions, with their files below a folder."""
    yield from long_sessions(top)
    yield from random_sessions(top, seed)


def sessions_of_lines(top: bytes, seed: int) -> Iterator[Labelled]:
    yield from sessions(top, seed)
    yield from long_sessions_beside(top)
    yield from random_sessions(top, seed, b"beside", make_session_beside)


def try_sessions(refuser: Refuser, known: list[Labelled], jobs: int, tally: AnswerTest) -> None:
    for (label, _), found in zip(
        known, side_by_side(jobs, lambda one: try_session(refuser, one[1]), known)
    ):
        for way, faults in found.items():
            rest = ["and %d faults more" % (len(faults) - SHOWN)] if len(faults) > SHOWN else []
            tally.add("%s, %s" % (label, way), faults[:SHOWN] + rest)


def refused_call(refusal: Refusal) -> bytes | None:
    """The name of the call that was refused memory, if the one line on standard error tells it."""
    told = refusal.answer.errors.partition(b"refused: ")[2]
    name = told.partition(b"\n")[0]
    return name if refusal.answer.errors == b"refused: %s\n" % name and name in IN_MEMORY else None


def faults_in_memory(alone: Refusal, onwards: Refusal, free: Refusal) -> list[str]:
    """What is not as wanted where a growth of the sessions in memory is refused: only this one, and
    all later ones too."""
    is_felt = alone.answer.errors != b"" or not onwards.answer.output.endswith(NOT_UNDERSTOOD)
    faults = []
    if is_felt and not refused_call(alone):
        faults.append("no call told of it: %r" % alone.answer.errors)
    if alone.own != 1 or alone.others:
        faults.append("%d refused, %d of others" % (alone.own, alone.others))
    faults += difference(alone.answer, free.answer._replace(errors=alone.answer.errors))
    is_told = refused_call(onwards if not is_felt else alone)
    if is_felt and onwards.answer.errors != alone.answer.errors:
        is_told = None
    if onwards.answer.status != NO_MEMORY or not is_told:
        faults.append("with all later ones: %r" % (onwards.answer,))
    if not free.answer.output.startswith(onwards.answer.output):
        faults.append("with all later ones it printed %r" % onwards.answer.output[-200:])
    return faults


def try_in_memory(refuser: Refuser, stored: str, jobs: int, tally: AnswerTest) -> None:
    """Refuses each growth of the sessions over files in memory, alone and with all later ones."""
    with open(stored, "rb") as file:
        whole = Answer(file.read(), b"", 0)
    free = refuser.run([])
    tally.add("sessions in memory", faults_of_whole(free, whole))
    counts: Counter[bytes | None] = Counter()

    def both(first: int) -> tuple[Refusal, Refusal]:
        return refuser.run([], first, first), refuser.run([], first, 2**31 - 1)

    numbers = range(1, free.calls + 1)
    for first, (alone, onwards) in zip(numbers, side_by_side(jobs, both, numbers)):
        counts[refused_call(alone)] += 1
        tally.add(
            "sessions in memory, growth %d refused" % first, faults_in_memory(alone, onwards, free)
        )
    for name, least in IN_MEMORY.items():
        few = ["%d refused, fewer than %d" % (counts[name], least)] if counts[name] < least else []
        tally.add("sessions in memory, allocations of " + name.decode(), few)


@slow
class FailedAllocationsTest(PreloadTest):
    source = "fail_allocation.c"

    def test_report(self) -> None:
        known = list(sessions(self.directory, new_seed()))
        try_sessions(Refuser(self.program, self.library, wanted), known, 2, self)

    def test_lines(self) -> None:
        known = list(sessions_of_lines(self.directory, new_seed()))
        refuser = Refuser(self.lines_program, self.library, wanted_lines, b"--config-check")
        try_sessions(refuser, known, 2, self)

    def test_sessions_in_memory(self) -> None:
        program = os.path.join(TOP, "crates", "aide_in_memory", "out", "aide_in_memory")
        if not os.access(program, os.X_OK):
            self.skipTest("not built: crates/aide_in_memory/out/aide_in_memory")
        stored = os.path.join(TOP, "crates", "aide_in_memory", "stdout")
        try_in_memory(Refuser(os.fsencode(program), self.library), stored, 2, self)
