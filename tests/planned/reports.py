"""Runs that write the report, over devices that fail, change, or move few bytes at a time, with
what is wanted of each: the answer, what was written, how often each side was opened."""
from __future__ import annotations

from collections.abc import Iterable, Iterator
from typing import NamedTuple, Union

from tests.oracle.configuration import LEVELS
from tests.oracle.session import Beginning
from tests.planned import faults
from tests.planned.databases import FORMS_NEW, FORMS_OLD, NEW, OLD
from tests.planned.driver import PlannedTest, Seen, played
from tests.planned.faults import NEW as NEW_SIDE, OLD as OLD_SIDE, SIDES
from tests.planned.plans import Run, Side, Writer

# A database in place of one of the two: with another size, with the same entries in other bytes, or
# with no entry.
OTHERS = [
    (OLD_SIDE, OLD.replace(b" 10\n", b" 11\n")),
    (NEW_SIDE, NEW.replace(b" 7\n", b" 11\n")),
    (OLD_SIDE, OLD.replace(b"/c", b"# more\n/c")),
    (NEW_SIDE, NEW + b"\n"),
    (OLD_SIDE, b"@@begin_db\n@@db_spec name\n@@end_db\n"),
    (NEW_SIDE, b"@@begin_db\n@@db_spec name\n@@end_db\n"),
]


class Continued(bytes):
    """In place of what was written: whatever begins with these bytes."""

    def __eq__(self, sent: object) -> bool:
        return isinstance(sent, bytes) and sent.startswith(self)

    def __ne__(self, sent: object) -> bool:
        return not self == sent


class Wanted(NamedTuple):
    """What a run answers, has written, has opened, and how often a device has failed."""

    answer: str
    sent: Union[bytes, Beginning, Continued]
    openings: tuple[int, int]
    failures: int = 0
    stumbles: int = 0


class Pair(NamedTuple):
    """Two sound databases, the options of a run over them, and its report."""

    old: bytes
    new: bytes
    options: bytes
    report: bytes

    @property
    def openings(self) -> int:
        return faults.openings_at(self.report, len(self.report))

    def text(self, side: str) -> bytes:
        return self.old if side == OLD_SIDE else self.new

    def run(self) -> Run:
        """A run over them, in which nothing fails."""
        return Run(Side(self.old), Side(self.new), options=self.options)

    def with_side(self, side: str, plan: Side, opening: int) -> Run:
        """A run in which one side is given by another plan, and after it a good one. If the side
        goes wrong before anything is written, the sink takes no byte and cannot be flushed."""
        sink = Writer() if opening > faults.SILENT else Writer(sound=0, flush_fails=True)
        run = self.run()._replace(again=True, sink=sink)
        return run._replace(old=plan) if side == OLD_SIDE else run._replace(new=plan)

    def stopped(self, side: str, opening: int, fault: str, failures: int) -> Wanted:
        """What is wanted of a run that ends with a fault of a side in an opening."""
        openings = (opening, 0 if side == OLD_SIDE and opening == 1 else opening)
        sent = Beginning(self.report) if opening > faults.SILENT else b""
        return Wanted(faults.compared(fault), sent, openings, failures)


def pair_of(old: bytes, new: bytes, options: bytes = b"") -> Pair:
    return Pair(old, new, options, faults.report_over(old, new, options)[0])


WHOLE = pair_of(OLD, NEW)
SAME = pair_of(OLD, OLD, b"report_level=minimal\n")
QUIET = pair_of(OLD, OLD, b"report_quiet=yes\n")
AT_LEVELS = [
    pair_of(FORMS_OLD, FORMS_NEW, b"report_level=%s\n" % level.encode()) for level in LEVELS
]
Trial = tuple[Run, Wanted]


def refused_openings(pair: Pair) -> Iterator[Trial]:
    """Each opening of a run is refused."""
    for side in SIDES:
        for opening in range(1, pair.openings + 1):
            plan = Side(pair.text(side), refused=opening)
            want = pair.stopped(side, opening, faults.opening(side), 1)
            if side == OLD_SIDE:
                want = want._replace(openings=(opening, opening - 1))
            yield pair.with_side(side, plan, opening), want


def broken_readings(pair: Pair, once: bool) -> Iterator[Trial]:
    """The reel of each opening fails, at each byte and at the end. It fails once, or for good."""
    for side in SIDES:
        text = pair.text(side)
        for opening in range(1, pair.openings + 1):
            for sound in range(len(text) + 1):
                fault = faults.database(side, faults.line_at(text, sound), "Read")
                plan = Side(text).broken(opening, sound, once)
                yield pair.with_side(side, plan, opening), pair.stopped(side, opening, fault, 1)


def changed(pair: Pair, side: str, text: bytes) -> Iterator[Trial]:
    """From each opening after the first one on, or in this one alone, a side gives another text."""
    for opening in range(2, pair.openings + 1):
        want = pair.stopped(side, opening, faults.changed(side), 0)
        if opening > faults.SILENT:
            want = want._replace(sent=Continued(faults.overview_of(pair.report)))
        plan = Side(pair.text(side), opening, other_text=text)
        yield pair.with_side(side, plan, opening), want
        once = plan._replace(changed_until=opening + 1)
        yield pair.with_side(side, once, opening), want


def cut_and_damaged(pair: Pair) -> Iterator[Trial]:
    """Each side is cut after each byte and damaged in each byte, from each opening on."""
    for side in SIDES:
        text = pair.text(side)
        for index in range(len(text)):
            damaged = text[:index] + bytes([text[index] ^ 1]) + text[index + 1 :]
            for other in (text[:index], damaged):
                yield from changed(pair, side, other)


def written(pair: Pair, sound: int, sink: Writer) -> Trial:
    """A run whose sink fails after so many bytes, or at the flush after them. Nothing is tried
    again: if only one call fails, that would succeed."""
    openings = faults.openings_at(pair.report, sound)
    answer = faults.compared(faults.write(sound))
    want = Wanted(answer, pair.report[:sound], (openings, openings), stumbles=1)
    return pair.run()._replace(sink=sink._replace(sound=sound, flush_fails=True)), want


def cut_reports(pair: Pair, paces: Iterable[int]) -> Iterator[Trial]:
    """The sink fails at each byte and at the flush, for good and once, or takes nothing once."""
    for sound in range(len(pair.report) + 1):
        for pace in paces:
            yield written(pair, sound, Writer(pace))
        yield written(pair, sound, Writer(7, once=True))
        yield written(pair, sound, Writer(7, once=True, takes_nothing=True))


class ReportTest(PlannedTest):
    def faults_of(self, seen: Seen, want: Wanted) -> list[str]:
        given = (
            seen.answer,
            seen.sink.sent,
            seen.openings,
            seen.failures,
            seen.sink.stumbles,
            seen.sink.later,
        )
        openings = (*want.openings, 0, 0)
        wanted = (want.answer, want.sent, openings, (want.failures, 0), want.stumbles, 0)
        return [
            f"wanted {two!r:.300}, given {one!r:.300}"
            for one, two in zip(given, wanted)
            if one != two
        ]

    def good(self, seen: Seen, pair: Pair) -> list[str]:
        """What is not as wanted of a run without a failure: all is written, then flushed once."""
        openings = (pair.openings,) * 2
        want = Wanted(self.answer_of(pair), pair.report, openings)
        sink = (seen.sink.flushes, seen.sink.flushed)
        flushed = [] if sink == (1, len(pair.report)) else [f"flushes and bytes before: {sink}"]
        return self.faults_of(seen, want) + flushed

    def answer_of(self, pair: Pair) -> str:
        return faults.outcome_over(pair.old, pair.new, pair.options)

    def stops(self, label: str, pair: Pair, trials: Iterable[Trial]) -> None:
        """Each run ends as wanted, and the same desk then serves a good run."""
        found: list[str] = []
        count = 0
        for run, want, printed in self.driver.each(trials):
            count += 1
            first, _, second = played(printed)
            wrong = self.faults_of(first, want)
            if second is not None:
                wrong += [f"again: {fault}" for fault in self.good(second, pair)]
            found += [f"{run!r:.1200}: {fault}" for fault in wrong]
        self.holds(label + ", trials", count > 0)
        self.compare(label, found)

    def runs_well(self, label: str, pair: Pair, runs: Iterable[Run]) -> None:
        found: list[str] = []
        for run, _, printed in self.driver.each((run, None) for run in runs):
            found += [f"{run!r:.1200}: {fault}" for fault in self.good(played(printed).first, pair)]
        self.compare(label, found)
