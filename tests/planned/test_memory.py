"""Reports on desks and into sinks that are refused memory, on desks with room, and over many
entries."""
from __future__ import annotations

from tests.lib.program_test import slow
from tests.planned import databases, faults
from tests.planned.databases import LINES_OF_30, LINES_OF_30_AND_31
from tests.planned.driver import Played, played
from tests.planned.faults import OLD as OLD_SIDE
from tests.planned.plans import PACES, Cursor, Desk, Limits, Memory, Run, Side
from tests.planned.reports import AT_LEVELS, WHOLE, Pair, ReportTest, pair_of

# More allocations than any run makes.
MANY = 1000
# A database of an entry with a short line and one with a long line.
SHORT_AND_LONG = b"@@begin_db\n@@db_spec name size\n/a 1\n/b%s 1\n@@end_db\n" % (b"b" * 2962)
MINIMAL = b"report_level=minimal\n"
SAME = b"AIDE found NO differences between the two databases.\n"
DIFFERENT = b"AIDE found differences between the two databases.\n"


def starved(pair: Pair, seen: Played) -> str:
    """The answer of a run that is out of memory at the byte that was given last."""
    side, old, new = seen.first.read.replace("Some(", "").replace(")", "").split()
    text, given = (pair.old, int(old)) if side == OLD_SIDE else (pair.new, int(new))
    return faults.compared(faults.database(side, faults.line_at(text, given), "Memory"))


class GrowthsTest(ReportTest):
    def refuse_each(self, label: str, pair: Pair, run: Run) -> list[Played]:
        """Refuses each allocation of the desk in turn. What is seen of the refused runs."""
        slowly = run.with_sides({"old": Side(pair.old).paced(1), "new": Side(pair.new).paced(1)})
        found: list[str] = []
        refused: list[Played] = []
        for growth in range(MANY):
            plan = slowly._replace(desk=Desk(refused=growth), again=True)
            seen = played(self.driver.one(plan))
            if not seen.is_refused:
                found += self.good(seen.first, pair)
                break
            refused.append(seen)
            found += [f"growth {growth}: {fault}" for fault in self.faults_of_refused(pair, seen)]
        self.compare(label, found)
        self.holds(label + ", growths", 1 < len(refused) < MANY, len(refused))
        return refused

    def faults_of_refused(self, pair: Pair, seen: Played) -> list[str]:
        """What is not as wanted of a run that was refused memory, and of the one after it."""
        first, _, second = seen
        found = [] if first.answer == starved(pair, seen) else [f"answer {first.answer}"]
        found += [] if first.status == 22 else [f"status {first.status}"]
        is_front = pair.report.startswith(first.sink.sent)
        is_silent = first.openings[1] <= faults.SILENT
        found += [] if is_front and not (is_silent and first.sink.sent) else ["what was written"]
        found += [f"again: {fault}" for fault in self.good(second, pair)] if second else ["once"]
        return found

    def test_desks(self) -> None:
        for pair in (WHOLE, *AT_LEVELS):
            self.refuse_each(f"a desk is refused memory, {pair.options!r}", pair, pair.run())

    def test_counting(self) -> None:
        """The lists change places at each entry, so that a long line can meet a short list again in
        the pass that counts."""
        pair = pair_of(SHORT_AND_LONG, SHORT_AND_LONG, MINIMAL)
        refused = self.refuse_each("long lines", pair, pair.run())
        late = [seen for seen in refused if seen.first.openings[1] > 1]
        self.holds("growths of the counting pass", late)

    def test_sinks(self) -> None:
        """A sink in memory is refused an allocation: the write has failed."""
        found, growth = [], 0
        for growth in range(MANY):
            seen = played(self.driver.one(WHOLE.run()._replace(sink=Memory(growth)))).first
            if not seen.sink.stumbles:
                found += self.good(seen, WHOLE)
                break
            sent = seen.sink.sent
            if seen.answer != faults.compared(faults.write(len(sent))):
                found.append(f"growth {growth}: {seen.answer}")
            if not WHOLE.report.startswith(sent):
                found.append(f"growth {growth}: {sent!r}")
        self.compare("a sink is refused memory", found)
        self.holds("growths of a sink", 0 < growth < MANY - 1, growth)


class RoomTest(ReportTest):
    def test_room(self) -> None:
        """A desk has room for lines of 30 bytes, and all memory after that may be refused."""
        for line, old, refused, report in (
            (30, LINES_OF_30, 6, SAME),
            (30, LINES_OF_30, None, SAME),
            (31, LINES_OF_30_AND_31, None, DIFFERENT),
            (30, LINES_OF_30_AND_31, None, b""),
            (30, LINES_OF_30_AND_31, 6, b""),
        ):
            run = Run(Side(old), Side(LINES_OF_30), options=MINIMAL, limits=Limits(line, 1000))
            plan = run._replace(desk=Desk(30, refused, True))
            seen = played(self.driver.one(plan)).first
            label = f"limit {line}, {old!r}, {refused}"
            answer = faults.compared(faults.database(OLD_SIDE, 4, "LineTooLong"))
            if report:
                answer = faults.outcome_over(old, LINES_OF_30, MINIMAL)
            self.holds(label, seen.answer == answer and seen.sink.sent == report, seen)
            peak = 90 if old == LINES_OF_30 else seen.desk.peak
            self.holds(label + ", desk", seen.desk[1:] == (peak, 30), seen.desk)

    def test_levels(self) -> None:
        """With room for the longest line no run needs other memory."""
        for pair in AT_LEVELS:
            old, new = Side(pair.old).paced(7), Side(pair.new).paced(7)
            run = pair.run()._replace(old=old, new=new, desk=Desk(65536, 6, True))
            self.runs_well(f"no growth, {pair.options!r}", pair, [run])

    def test_reservations(self) -> None:
        for refused in range(3):
            printed = self.driver.one(Cursor(LINES_OF_30, desk=Desk(30, refused)))
            self.holds(f"reservation {refused}", printed == [("desk", "Memory 1")], printed)

    def test_peaks(self) -> None:
        """Two runs over one desk hold three lines at most."""
        pair = pair_of(LINES_OF_30, LINES_OF_30, MINIMAL)
        for pace in PACES:
            side = Side(LINES_OF_30).paced(pace)
            seen = played(self.driver.one(pair.run()._replace(old=side, new=side, again=True)))
            peaks = [each.desk.peak for each in (seen.first, seen.second) if each]
            self.holds(f"peaks at pace {pace}", peaks == [90, 90], peaks)
            self.compare(f"a run at pace {pace}", self.good(seen.first, pair))


@slow
class LargeTest(ReportTest):
    def test_many_entries(self) -> None:
        """200,000 entries on each side."""
        old, new = databases.large(3, 1), databases.large(5, 2)
        pair = pair_of(old, new)
        run = pair.run()._replace(limits=Limits(30, 1 << 40))
        seen = played(self.driver.one(run)).first
        self.compare("many entries", self.good(seen, pair))
        told = "added: 200, removed: 200, changed: 200, total: 200000"
        self.holds("the counts", told in seen.answer, seen.answer)
        self.holds("the peak", seen.desk.peak == 90, seen.desk)
        self.holds("openings", seen.openings == (6, 6, 0, 0) and seen.status == 7, seen.openings)
