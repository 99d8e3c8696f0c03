"""Lines over databases that are not sound, cannot be opened or read, into sinks that fail, and on
desks that are refused memory. Each database is opened once. The first fault in the order of the
databases is told, whatever is wrong with those after it, and the last line is not written."""
from __future__ import annotations

from collections.abc import Iterator

from tests.oracle.session import Beginning
from tests.planned import faults, lines
from tests.planned.driver import Played
from tests.planned.lines import GIVEN, PLACES, Given, LinesTest, Trial, Wanted
from tests.planned.plans import PACES, Desk, Memory, Side, Writer

# A line that no database may have.
WRONG_LINE = b"@@wrong\n"
# More allocations than any run makes.
MANY = 1000


def stopped(given: Given, answer: str) -> Wanted:
    """What is wanted of a run that ends with a fault after all databases were opened."""
    return Wanted(answer, Beginning(given.begun), lines.openings(4))


def unsound(given: Given) -> Iterator[Trial]:
    """Each database has the wrong line before each of its lines. The later ones are sound, or are
    wrong too, or cannot be opened."""
    for index, place in enumerate(PLACES):
        text = given.texts[index]
        later = PLACES[index + 1 :]
        pieces = text.splitlines(keepends=True)
        for line in range(1, len(pieces) + 1):
            spoiled = b"".join([*pieces[: line - 1], WRONG_LINE, *pieces[line - 1 :]])
            run = given.run().with_sides({place: Side(spoiled)})
            kind = "NoBegin" if line == 1 else "BadDirective"
            answer = lines.fault_of(place, faults.database(lines.side_of(place), line, kind))
            yield run, stopped(given, answer)
            yield run.with_sides(dict.fromkeys(later, Side(WRONG_LINE))), stopped(given, answer)
            if later:
                want = Wanted(answer, b"", lines.openings(index + 2))
                yield run.with_sides(dict.fromkeys(later, Side(refused=1))), want


def unopened(given: Given) -> Iterator[Trial]:
    """Each database cannot be opened."""
    for index, place in enumerate(PLACES):
        answer = lines.fault_of(place, faults.opening(lines.side_of(place)))
        want = Wanted(answer, b"", lines.openings(index + 1))
        yield given.run().with_sides({place: Side(refused=1)}), want


def unread(given: Given, once: bool) -> Iterator[Trial]:
    """Each database fails at each byte and at the end, once or for good."""
    for place, text in zip(PLACES, given.texts):
        for sound in range(len(text) + 1):
            line = faults.line_at(text, sound)
            answer = lines.fault_of(place, faults.database(lines.side_of(place), line, "Read"))
            run = given.run().with_sides({place: Side(text).broken(1, sound, once)})
            yield run, stopped(given, answer)


def unwritten(given: Given) -> Iterator[Trial]:
    """The sink fails at each byte and at the flush, for good and once, or takes nothing once.
    Nothing is tried again."""
    sinks = [Writer(pace) for pace in PACES]
    sinks += [Writer(7, once=True), Writer(7, once=True, takes_nothing=True)]
    for sound in range(len(given.lines) + 1):
        answer = faults.compared(faults.write(sound))
        want = Wanted(answer, given.lines[:sound], lines.openings(4), stumbles=1)
        for sink in sinks:
            yield given.run()._replace(sink=sink._replace(sound=sound, flush_fails=True)), want


class DevicesTest(LinesTest):
    def test_paces(self) -> None:
        for number, given in enumerate(GIVEN):
            for pace in PACES:
                seen = self.play(given.paced(pace)._replace(sink=Writer(pace))).first
                self.compare(f"{number} at pace {pace}", self.good(seen, given))
            paged = given.run()._replace(sink=Writer(has_page=True))
            self.compare(f"{number} with a page", self.good(self.play(paged).first, given))

    def test_unsound(self) -> None:
        for number, given in enumerate(GIVEN):
            self.stops(f"unsound databases, {number}", unsound(given))

    def test_openings(self) -> None:
        for number, given in enumerate(GIVEN):
            self.stops(f"an opening is refused, {number}", unopened(given))

    def test_readings(self) -> None:
        for number, given in enumerate(GIVEN):
            for once in (False, True):
                self.stops(f"a read fails, {number}, {once}", unread(given, once))

    def test_sinks(self) -> None:
        for number, given in enumerate(GIVEN):
            self.stops(f"a sink fails, {number}", unwritten(given))


def starved(given: Given, seen: Played) -> str:
    """The answer of a run that is out of memory: all databases before the one at fault were read to
    their ends."""
    told = seen.first.read.split()[1:] + seen.first.trusted_read.split()[1:]
    counts = map(int, told)
    for place, text, count in zip(PLACES, given.texts, counts):
        if count < len(text):
            line = faults.line_at(text, count)
            return lines.fault_of(place, faults.database(lines.side_of(place), line, "Memory"))
    return "no fault"


class MemoryTest(LinesTest):
    def refuse_each(self, number: int, given: Given) -> int:
        """Refuses each allocation of the desks in turn. How many there are."""
        found: list[str] = []
        plan = given.paced(1)._replace(again=True)
        for growth in range(MANY):
            seen = self.play(plan._replace(desk=Desk(refused=growth)))
            if not seen.is_refused:
                found += self.good(seen.first, given)
                break
            answer, sent = seen.first.answer, seen.first.sink.sent
            found += [] if answer == starved(given, seen) else [f"growth {growth}: {answer}"]
            found += [] if given.begun.startswith(sent) else [f"growth {growth}: {sent!r}"]
            again = self.good(seen.second, given) if seen.second else ["no second run"]
            found += [f"after growth {growth}: {fault}" for fault in again]
        self.compare(f"desks are refused memory, {number}", found)
        return growth

    def refuse_sink(self, number: int, given: Given) -> int:
        """Refuses each allocation of the sink in turn. How many there are."""
        found: list[str] = []
        for growth in range(MANY):
            seen = self.play(given.run()._replace(sink=Memory(growth))).first
            if not seen.sink.stumbles:
                found += self.good(seen, given)
                break
            sent = seen.sink.sent
            is_right = seen.answer == faults.compared(faults.write(len(sent)))
            found += [] if is_right else [f"growth {growth}: {seen.answer}"]
            found += [] if given.lines.startswith(sent) else [f"growth {growth}: {sent!r}"]
        self.compare(f"a sink is refused memory, {number}", found)
        return growth

    def test_growths(self) -> None:
        for number, given in enumerate(GIVEN):
            growths = self.refuse_each(number, given)
            self.holds(f"growths, {number}", 3 < growths < MANY - 1, growths)
            growths = self.refuse_sink(number, given)
            self.holds(f"growths of a sink, {number}", 0 < growths < MANY - 1, growths)

    def test_room(self) -> None:
        """On desks with room a run needs no other memory. Each holds lines of its databases, three
        at most as long as their longest one."""
        for number, given in enumerate(GIVEN):
            run = given.paced(7)._replace(desk=Desk(65536, 6, True))
            seen = self.play(run).first
            self.compare(f"desks with room, {number}", self.good(seen, given))
            for desk, texts in ((seen.desk, given.texts[:2]), (seen.trusted_desk, given.texts[2:])):
                longest = max(len(line) for text in texts for line in text.splitlines())
                is_held = 0 < desk.peak <= 3 * longest and desk.room == 65536
                self.holds(f"what a desk holds, {number}", is_held, desk)
