"""Runs that write lines of JSON, of two databases beside a trusted pair and a list, with what is
wanted of them."""
from __future__ import annotations

from collections.abc import Iterable
from typing import NamedTuple, Union

from tests.oracle.database import database_of
from tests.oracle.lines import lines_of
from tests.oracle.patterns import rules_of
from tests.oracle.session import Beginning
from tests.planned import faults
from tests.planned.databases import EMPTY, OLD
from tests.planned.driver import PlannedTest, Played, Seen, played
from tests.planned.plans import Kind, Run, Side

# The databases in the order in which their faults count.
PLACES = ("old", "new", "trusted_old", "trusted_new")
END = b'{"end":true'
SKIPPING = b"""@@begin_db
@@db_spec name attr colour perm size
/a 36 7 100644 5
/c 36 8 100600 7
@@end_db
"""
COLUMNS = b"@@begin_db\n@@db_spec name attr perm uid gid size sha256\n"
FIELDS = b"/%s 536870972 100644 0 0 %d %s\n"
ONE, OTHER = (
    b"dpLDrTVAu4A8Ags67mbNiIcSMjTqDG5xQ8Ct1z/0Me0=",
    b"P8TM/nRYcOLA2Z9x8w/wZWyN7dQcwdfT03aw2+aF4vM=",
)
BEFORE = COLUMNS + FIELDS % (b"a", 5, ONE) + FIELDS % (b"gone", 1, ONE) + b"@@end_db\n"
AFTER = COLUMNS + FIELDS % (b"a", 6, OTHER) + FIELDS % (b"new", 7, OTHER) + b"@@end_db\n"
TRUSTED_BEFORE = BEFORE.replace(b"/gone", FIELDS[:-1] % (b"b", 9, ONE) + b"\n/gone")
TRUSTED_AFTER = AFTER[: AFTER.index(b"/new")] + FIELDS % (b"b", 8, OTHER) + b"@@end_db\n"
LISTED_BEFORE = b"""@@begin_db
@@db_spec name perm uid gid capabilities
/a 100644 0 0 0
/b 40700 0 0 0
/p 100755 0 0 0
/s 104755 0 0 0
@@end_db
"""
LISTED_AFTER = b"""@@begin_db
@@db_spec name perm uid gid capabilities
/a 100600 0 0 0
/b 40755 0 0 0
/p 100700 0 0 0
/s 104711 0 0 0
@@end_db
"""
TRUSTED_LISTED_BEFORE = b"""@@begin_db
@@db_spec name perm uid gid
/b 40700 0 0
/z 40700 0 0
@@end_db
"""
TRUSTED_LISTED_AFTER = TRUSTED_LISTED_BEFORE.replace(b"40700", b"40755")


class Given(NamedTuple):
    """Two databases, a trusted pair and a list, and the lines of the changes with their status."""

    texts: tuple[bytes, ...]
    list: bytes
    lines: bytes
    status: int

    @property
    def begun(self) -> bytes:
        """What comes before the last line."""
        return self.lines[: self.lines.index(END)]

    def run(self) -> Run:
        run = Run(Side(), Side(), kind=Kind.LINES, list=self.list)
        return run.with_sides(dict(zip(PLACES, map(Side, self.texts))))

    def paced(self, pace: int) -> Run:
        """The run whose readers give so many bytes at a time."""
        sides = {place: Side(text).paced(pace) for place, text in zip(PLACES, self.texts)}
        return self.run().with_sides(sides)


def given_of(texts: Iterable[bytes], rules: bytes = b"") -> Given:
    four = tuple(texts)
    settings = {
        **faults.settings_of(b""),
        "trusted": [b"/trusted_old", b"/trusted_new"],
        "list": (rules_of(rules), rules),
    }
    old, new = map(database_of, four[:2])
    lines, status = lines_of(old, new, list(four), settings)
    return Given(four, rules, lines, status)


# Two databases that differ, one of them with a column that is skipped, and the same database twice,
# each beside a trusted pair without entries. Then two beside a trusted pair that knows all their
# changes but one, and two beside a trusted pair and a list: each rule leaves one change out, the
# trusted pair accounts for another that a rule names, and a program with a set-ID bit stays.
GIVEN = [
    given_of([OLD, SKIPPING, EMPTY, EMPTY]),
    given_of([SKIPPING, SKIPPING, EMPTY, EMPTY]),
    given_of([BEFORE, AFTER, TRUSTED_BEFORE, TRUSTED_AFTER]),
    given_of(
        [LISTED_BEFORE, LISTED_AFTER, TRUSTED_LISTED_BEFORE, TRUSTED_LISTED_AFTER],
        b"/other\n/?\nprograms(made anew) /p\n",
    ),
]


def side_of(place: str) -> str:
    return faults.NEW if place.endswith("new") else faults.OLD


def fault_of(place: str, fault: str) -> str:
    """A fault of the pair that a database belongs to."""
    return faults.trusted(fault) if place.startswith("trusted") else faults.compared(fault)


def openings(count: int) -> tuple[int, ...]:
    """How often each database is opened in a run that opens so many."""
    return tuple(int(place < count) for place in range(len(PLACES)))


class Wanted(NamedTuple):
    answer: str
    sent: Union[bytes, Beginning]
    openings: tuple[int, ...]
    stumbles: int = 0


Trial = tuple[Run, Wanted]


class LinesTest(PlannedTest):
    def faults_of(self, seen: Seen, want: Wanted) -> list[str]:
        given = (seen.answer, seen.sink.sent, seen.openings, seen.sink.stumbles, seen.sink.later)
        wanted = (*want, 0)
        return [
            f"wanted {two!r:.300}, given {one!r:.300}"
            for one, two in zip(given, wanted)
            if one != two
        ]

    def good(self, seen: Seen, given: Given) -> list[str]:
        """What is not as wanted of a run without a failure: all is written, then flushed once."""
        answer = faults.outcome_over(*given.texts[:2])
        found = self.faults_of(seen, Wanted(answer, given.lines, openings(4)))
        sink = (seen.sink.flushes, seen.sink.flushed)
        found += [] if sink == (1, len(given.lines)) else [f"flushes and bytes before: {sink}"]
        return found + ([] if seen.status == given.status else [f"status {seen.status}"])

    def stops(self, label: str, trials: Iterable[Trial]) -> None:
        found: list[str] = []
        count = 0
        for run, want, printed in self.driver.each(trials):
            count += 1
            wrong = self.faults_of(played(printed).first, want)
            found += [f"{run!r:.1500}: {fault}" for fault in wrong]
        self.holds(label + ", trials", count > 0)
        self.compare(label, found)

    def play(self, run: Run) -> Played:
        return played(self.driver.one(run))
