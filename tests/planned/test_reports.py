"""Reports over devices that fail, change, or move few bytes at a time: the answer, what has been
written, how often each side was opened, and a good run on the same desk after it."""
from __future__ import annotations

from collections.abc import Iterator

from tests.lib.program_test import slow
from tests.planned import faults, reports
from tests.planned.databases import OLD, UNORDERED
from tests.planned.faults import NEW as NEW_SIDE, OLD as OLD_SIDE
from tests.planned.plans import PACES, Kind, Desk, Side, Writer
from tests.planned.reports import (
    AT_LEVELS,
    OTHERS,
    QUIET,
    SAME,
    WHOLE,
    Pair,
    ReportTest,
    Trial,
    Wanted,
)
from tests.program.refusal_rows import SOUND


def unsound() -> Iterator[Trial]:
    """One database or both are out of path order in line 5. The old one is told first."""
    for old, new, side, openings in (
        (UNORDERED, SOUND, OLD_SIDE, (1, 0)),
        (SOUND, UNORDERED, NEW_SIDE, (1, 1)),
        (UNORDERED, UNORDERED, OLD_SIDE, (1, 0)),
    ):
        run = WHOLE.run()._replace(old=Side(old), new=Side(new), again=False)
        answer = faults.compared(faults.database(side, 5, "OutOfOrder"))
        yield run, Wanted(answer, b"", openings)
        roomy = run._replace(kind=Kind.HEADLINE, desk=Desk(65536))
        yield roomy, Wanted(answer, b"", openings)


def both_broken(pair: Pair, opening: int, sound: int) -> Trial:
    """Both sides fail at the same byte of the same opening. The old one is told, since it is read
    first."""
    fault = faults.database(OLD_SIDE, faults.line_at(pair.old, sound), "Read")
    run = pair.with_side(OLD_SIDE, Side(pair.old).broken(opening, sound, False), opening)
    new = Side(pair.new).broken(opening, sound, False)
    want = pair.stopped(OLD_SIDE, opening, fault, 1)._replace(openings=(opening, opening))
    return run._replace(new=new), want


def both_changed(text: bytes) -> Trial:
    """Both sides change in the same opening. The old one is told."""
    plan = Side(OLD, 2, other_text=text)
    run = SAME.with_side(OLD_SIDE, plan, 2)._replace(new=plan)
    return run, SAME.stopped(OLD_SIDE, 2, faults.changed(OLD_SIDE), 0)


class PaceTest(ReportTest):
    def test_paces(self) -> None:
        """Readers and writers that move few bytes at a time."""
        for pair in (WHOLE, SAME, QUIET, *AT_LEVELS):
            runs = [
                pair.run()._replace(
                    old=Side(pair.old).paced(pace),
                    new=Side(pair.new).paced(pace),
                    sink=Writer(pace),
                )
                for pace in PACES
            ]
            self.runs_well(f"paces, {pair.options!r}", pair, runs)

    def test_calls(self) -> None:
        """The call of the headline on a desk with room, and a page before the writer."""
        for pair in (WHOLE, SAME, QUIET, *AT_LEVELS):
            roomy = pair.run()._replace(kind=Kind.HEADLINE, desk=Desk(65536))
            paged = pair.run()._replace(sink=Writer(has_page=True))
            self.runs_well(f"calls, {pair.options!r}", pair, [roomy, paged])


class FailuresTest(ReportTest):
    def test_unsound(self) -> None:
        self.stops("unsound databases", WHOLE, unsound())

    def test_openings(self) -> None:
        for pair in (WHOLE, SAME, *AT_LEVELS):
            label = f"an opening is refused, {pair.options!r}"
            self.stops(label, pair, reports.refused_openings(pair))

    def test_readings(self) -> None:
        for once in (False, True):
            self.stops(f"a read fails, {once}", WHOLE, reports.broken_readings(WHOLE, once))

    def test_replaced(self) -> None:
        for side, text in OTHERS:
            self.stops(f"{side} is replaced", WHOLE, reports.changed(WHOLE, side, text))

    def test_cut_and_damaged(self) -> None:
        self.stops("cut and damaged", WHOLE, reports.cut_and_damaged(WHOLE))

    def test_old_side_first(self) -> None:
        """If two databases have the same lines, an entry of each is read by turns. Otherwise at
        least the first entry of each is read in this order."""
        trials = [both_broken(SAME, 2, sound) for sound in range(len(OLD) + 1)]
        self.stops("both sides fail", SAME, trials)
        trials = [
            both_broken(WHOLE, opening, sound) for opening in range(2, 7) for sound in range(42)
        ]
        self.stops("both sides of different databases fail", WHOLE, trials)
        self.stops("both sides change", SAME, [both_changed(text) for _, text in OTHERS])

    def test_sinks(self) -> None:
        for pair in (WHOLE, QUIET):
            label = f"a sink fails, {pair.options!r}"
            self.stops(label, pair, reports.cut_reports(pair, PACES))


@slow
class LevelsTest(ReportTest):
    """The same at each level, over databases with every form of field."""

    def test_readings(self) -> None:
        for pair in AT_LEVELS:
            for once in (False, True):
                label = f"a read fails, {once}, {pair.options!r}"
                self.stops(label, pair, reports.broken_readings(pair, once))

    def test_cut_and_damaged(self) -> None:
        for pair in AT_LEVELS:
            label = f"cut and damaged, {pair.options!r}"
            self.stops(label, pair, reports.cut_and_damaged(pair))

    def test_sinks(self) -> None:
        for pair in AT_LEVELS:
            label = f"a sink fails, {pair.options!r}"
            self.stops(label, pair, reports.cut_reports(pair, PACES))
