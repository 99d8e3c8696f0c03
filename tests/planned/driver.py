"""Runs aide_planned over many plans at a time, and reads what it prints of each."""
from __future__ import annotations

import subprocess
from collections.abc import Callable, Iterable, Iterator, Sequence
from itertools import islice
from typing import Any, NamedTuple, Protocol, TypeVar

from tests.lib.answer import TIME_LIMIT
from tests.lib.program_test import AnswerTest
from tests.lib.programs import find_planned_program
from tests.lib.tally import side_by_side
from tests.planned.plans import Change, Configuration, Cursor, Groups, Run, Session

# How many plans a process gets, and how many processes run at a time.
BATCH, JOBS = 400, 2
WORDS = {
    Run: "run",
    Cursor: "cursor",
    Session: "session",
    Configuration: "settings",
    Groups: "groups",
    Change: "change",
}


class Plan(Protocol):
    """What one line of the input tells."""

    def numbers(self) -> tuple[Any, ...]:
        ...


AnyPlan = TypeVar("AnyPlan", bound=Plan)
AnyItem = TypeVar("AnyItem")
Wanted = TypeVar("Wanted")
# The lines that are printed of a plan, each as its first word and the rest.
Printed = list[tuple[str, str]]


class Script:
    """The input of a process: texts, each of which is given once, and plans."""

    def __init__(self) -> None:
        self.lines: list[str] = []
        self.texts: dict[bytes, int] = {}

    def text(self, text: bytes) -> str:
        if text not in self.texts:
            self.texts[text] = len(self.texts)
            self.lines.append("text " + text.hex())
        return str(self.texts[text])

    def flat(self, value: Any) -> Iterator[str]:
        if isinstance(value, (tuple, list)):
            for each in value:
                yield from self.flat(each)
        elif isinstance(value, bytes):
            yield self.text(value)
        else:
            yield "-" if value is None else str(int(value))

    def add(self, plan: Plan) -> None:
        numbers = list(self.flat(plan.numbers()))
        self.lines.append(" ".join([WORDS[type(plan)], *numbers]))


def zip_batches(
    batches: Iterable[list[AnyItem]], work: Callable[[list[AnyItem]], list[Printed]]
) -> Iterator[tuple[list[AnyItem], list[Printed]]]:
    """Each batch with what some work over it gives, so many at a time that memory is no concern."""
    left = iter(batches)
    for group in iter(lambda: list(islice(left, 2 * JOBS)), []):
        yield from zip(group, side_by_side(JOBS, work, group))


class Driver:
    """The program aide_planned."""

    def __init__(self) -> None:
        self.program = find_planned_program()

    def printed(self, plans: Sequence[Plan]) -> list[Printed]:
        """What is printed of each plan."""
        script = Script()
        for plan in plans:
            script.add(plan)
        done = subprocess.run(
            [self.program],
            input="\n".join([*script.lines, ""]),
            stdout=subprocess.PIPE,
            stderr=subprocess.PIPE,
            timeout=TIME_LIMIT,
            text=True,
            check=False,
        )
        blocks = done.stdout.split("\n\n")[:-1]
        if done.returncode or done.stderr or len(blocks) != len(plans):
            raise AssertionError(f"{self.program}: {done.returncode}, {done.stderr[:2000]}")
        return [pairs_of(block) for block in blocks]

    def each(
        self, trials: Iterable[tuple[AnyPlan, Wanted]], batch: int = BATCH
    ) -> Iterator[tuple[AnyPlan, Wanted, Printed]]:
        """Each plan with what is wanted of it and what is printed of it."""
        left = iter(trials)
        batches = iter(lambda: list(islice(left, batch)), [])

        def tried(some: list[tuple[AnyPlan, Wanted]]) -> list[Printed]:
            return self.printed([plan for plan, _ in some])

        for some, printed in zip_batches(batches, tried):
            for (plan, wanted), lines in zip(some, printed):
                yield plan, wanted, lines

    def one(self, plan: Plan) -> Printed:
        return self.printed([plan])[0]


def pairs_of(block: str) -> Printed:
    parted = [line.partition(" ") for line in block.split("\n")]
    return [(name, rest) for name, _, rest in parted]


def numbers_of(text: str) -> tuple[int, ...]:
    return tuple(map(int, text.split()))


class Sink(NamedTuple):
    """What a sink has taken: its flushes, its bytes at the last one, how often it stumbled, and how
    often it was called after that."""

    sent: bytes
    flushes: int
    flushed: int
    stumbles: int
    later: int


def sink_of(sent: str, numbers: str) -> Sink:
    return Sink(bytes.fromhex(sent), *numbers_of(numbers))


class DeskSeen(NamedTuple):
    """The bytes that a desk holds, the most that it ever held, and its room."""

    held: int
    peak: int
    room: int


class Seen(NamedTuple):
    """What is seen of a run. What was read of a pair is the side that was read last, and how many
    bytes the last reel of each side gave."""

    answer: str
    status: int
    openings: tuple[int, ...]
    failures: tuple[int, ...]
    read: str
    trusted_read: str
    sink: Sink
    desk: DeskSeen
    trusted_desk: DeskSeen


def seen_in(printed: Printed) -> Seen:
    found = dict(printed)
    return Seen(
        found["answer"],
        int(found["status"]),
        numbers_of(found["openings"]),
        numbers_of(found["failures"]),
        found["read"],
        found["trusted_read"],
        sink_of(found["sent"], found["sink"]),
        DeskSeen(*numbers_of(found["desk"])),
        DeskSeen(*numbers_of(found["trusted_desk"])),
    )


class Played(NamedTuple):
    """What is seen of a run, whether it was refused memory for a desk, and what is seen of the run
    after it on the same desks."""

    first: Seen
    is_refused: bool
    second: Seen | None


def played(printed: Printed) -> Played:
    at = [name for name, _ in printed].index("refused")
    second = printed[at + 1 :]
    is_refused = printed[at][1] == "true"
    return Played(seen_in(printed[:at]), is_refused, seen_in(second) if second else None)


class PlannedTest(AnswerTest):
    """A test of plans. So many faults are shown of each label."""

    shown = 3

    def setUp(self) -> None:
        self.driver = Driver()

    def compare(self, label: str, faults: list[str]) -> None:
        rest = [f"and {len(faults) - self.shown} more"] if len(faults) > self.shown else []
        self.add(label, faults[: self.shown] + rest)
