"""Databases read by a cursor: sound, faulty, cut and too long ones, from readers that give few
bytes at a time, fail or never end, on desks that are refused memory."""
from __future__ import annotations

import hashlib
from collections.abc import Iterable, Iterator
from typing import NamedTuple, Optional

from tests.oracle.database import first_fault, parts_of
from tests.oracle.texts import lines_of
from tests.planned import cursor_rows, faults
from tests.planned.databases import LINES_OF_30, LINES_OF_30_AND_31, OLD
from tests.planned.driver import PlannedTest, Printed, numbers_of
from tests.planned.plans import LINE_LIMIT, PACES, Cursor, Desk, Limits, Reader

END = "Ok(End)"


class Wanted(NamedTuple):
    """What a cursor answers, after how many entries, and how often its reader has failed."""

    answer: str
    entries: Optional[int]
    failures: int = 0


class Seen(NamedTuple):
    """What is seen of a reading."""

    answer: str
    later: str
    entries: tuple[int, ...]
    digest: str
    failures: int
    reads: str
    read: str
    desk: tuple[int, ...]


def seen_in(printed: Printed) -> list[Seen]:
    """What is seen of one reading or of two."""
    starts = [index for index, (name, _) in enumerate(printed) if name == "answer"]
    seen = []
    for start in starts:
        found = dict(reversed(printed[start:]))
        seen.append(
            Seen(
                found["answer"],
                found["later"],
                numbers_of(found["entries"]),
                found["digest"],
                int(found["failures"]),
                found["reads"],
                found["read"],
                numbers_of(found["desk"]),
            )
        )
    return seen


def refusal(line: int, kind: str, column: int | None = None) -> str:
    return f"Err({faults.database_fault(faults.OLD, line, kind, column)})"


def wanted_of(text: bytes, limits: Limits = Limits()) -> Wanted:
    """What the definitions want of a text under limits."""
    fault = first_fault(text, limits.line, limits.bytes)
    entries = parts_of(lines_of(text[: limits.bytes])).entries
    if fault is None:
        return Wanted(END, len(entries))
    before = [number for number, _ in entries if number < fault.line]
    return Wanted(refusal(fault.line, fault.kind, fault.column), len(before))


def faults_of(seen: Seen, want: Wanted, text: bytes) -> list[str]:
    """What is not as wanted of a reading: its answer, which is the same when it is asked for once
    more, and at the end the digest of the whole text."""
    found = [] if seen.answer == want.answer else [f"wanted {want.answer}, given {seen.answer}"]
    found += [] if seen.later == seen.answer else [f"asked once more: {seen.later}"]
    count, views, _ = seen.entries
    if want.entries is not None and (count, views) != (want.entries, want.entries):
        found.append(f"wanted {want.entries} entries, given {count}, of which {views} are shown")
    digest = hashlib.sha256(text).hexdigest() if want.answer == END else "none"
    found += [] if seen.digest == digest else [f"digest {seen.digest}"]
    found += [] if seen.failures == want.failures else [f"{seen.failures} failures"]
    return found


Trial = tuple[Cursor, Wanted]


def paced(text: bytes, want: Wanted, limits: Limits = Limits()) -> Iterator[Trial]:
    for pace in PACES:
        yield Cursor(text, Reader(pace), limits), want


class CursorTest(PlannedTest):
    def reads(self, label: str, trials: Iterable[Trial]) -> None:
        found: list[str] = []
        count = 0
        for plan, want, printed in self.driver.each(trials):
            count += 1
            for seen in seen_in(printed)[:1]:
                wrong = faults_of(seen, want, plan.text)
                found += [f"{plan!r:.900}: {fault}" for fault in wrong]
        self.holds(label + ", trials", count > 0)
        self.compare(label, found)


class TextsTest(CursorTest):
    def test_rows(self) -> None:
        """Each text of a table, whose line and kind of fault are written beside it, and which the
        definitions want too."""
        for entries, line, kind, text in cursor_rows.ALL:
            want = Wanted(refusal(line, *kind) if kind else END, entries)
            self.holds(f"{text!r}", want == wanted_of(text), wanted_of(text))
            self.reads(f"{text!r}", paced(text, want))

    def test_limits(self) -> None:
        for limits, entries, line, kind, text in cursor_rows.LIMITED:
            want = Wanted(refusal(line, kind) if kind else END, entries)
            label = f"{text!r:.80} under {limits}"
            self.holds(label, want == wanted_of(text, limits), wanted_of(text, limits))
            self.reads(label, paced(text, want, limits))

    def test_cut(self) -> None:
        """A database that is cut after each of its bytes."""
        sizes = []
        for least, most, entries, line, kind in cursor_rows.CUTS:
            for size in range(least, most + 1):
                want = Wanted(refusal(line, kind) if kind else END, entries)
                self.holds(f"cut after {size}", want == wanted_of(OLD[:size]))
                self.reads(f"cut after {size}", paced(OLD[:size], want))
                sizes.append(size)
        self.assertEqual(sizes, list(range(len(OLD) + 1)))

    def test_border_of_chunks(self) -> None:
        """Two entries out of order, about the border of a chunk."""
        trials: list[Trial] = []
        for newline in range(4080, 4110):
            text = b"@@begin_db\n@@db_spec name\n/".ljust(newline, b"b") + b"\n/a\n@@end_db\n"
            trials += paced(text, Wanted(refusal(4, "OutOfOrder"), 1))
        self.reads("out of order", trials)

    def test_endless(self) -> None:
        """A byte that follows a text for ever. The desk holds no more than a line."""
        for text, byte, line, kind in cursor_rows.ENDLESS:
            plan = Cursor(text, Reader(pace=1, endless=byte))
            for seen in seen_in(self.driver.one(plan)):
                label = f"{text!r} and {byte} for ever"
                self.compare(label, faults_of(seen, Wanted(refusal(line, kind), 0), text))
                self.holds(label + ", desk", seen.desk[1] <= LINE_LIMIT, seen.desk)


class ReadersTest(CursorTest):
    def test_failures(self) -> None:
        """A reader that fails at each byte, once or for good. It is asked no more after that."""
        trials = []
        for sound in range(len(OLD)):
            line = faults.line_at(OLD, sound)
            entries = len([number for number in (3, 4) if number < line])
            want = Wanted(refusal(line, "Read"), entries, failures=1)
            for pace in PACES:
                for once in (False, True):
                    trials.append((Cursor(OLD, Reader(pace, sound, once)), want))
        self.reads("a reader fails", trials)

    def test_reads(self) -> None:
        """A cursor asks for a chunk at a time, and for a byte more than its limit allows."""
        text = b"@@begin_db\n@@db_spec name size\n/a 1\n@@end_db\n".ljust(10_000, b"x")
        for limit, count, answers in cursor_rows.READS:
            plan = Cursor(text, Reader(pace=1 << 30), Limits(bytes=limit))
            for seen in seen_in(self.driver.one(plan)):
                self.holds(f"limit {limit}", seen.reads == f"{count} {answers}", seen.reads)
                self.compare(f"limit {limit}", faults_of(seen, wanted_of(text, plan.limits), text))


class DesksTest(CursorTest):
    def test_growths(self) -> None:
        """Each allocation is refused in turn, and then the same desk reads the same text."""
        texts = [text for _, _, _, text in cursor_rows.ALL] + [OLD]
        for text in texts:
            growth, found = 0, list[str]()
            plans = [
                (Cursor(text, desk=Desk(refused=growth), again=True), None) for growth in range(40)
            ]
            for growth, (plan, _, printed) in enumerate(self.driver.each(plans)):
                first, second = seen_in(printed)
                if dict(printed)["refused"] == "false":
                    found += faults_of(first, wanted_of(text), text)
                    break
                found += [f"again: {fault}" for fault in faults_of(second, wanted_of(text), text)]
                found += [] if "kind: Memory" in first.answer else [first.answer]
                found += [] if first.later == first.answer else [first.later]
            self.compare(f"{text!r}, a desk is refused memory", found)
            self.holds(f"{text!r}, growths", growth < 39)
        self.holds("growths of a sound database", growth > 1, growth)

    def test_room(self) -> None:
        """What a desk with room for 30 bytes holds, and that it grows beyond it."""
        printed = dict(self.driver.one(Cursor(LINES_OF_30, desk=Desk(30))))
        self.holds("a new desk", printed["new_desk"] == "0 0 30", printed)
        self.holds("a side", printed["desk"] == "30 60 30", printed)
        for limit, answer, held in ((31, END, 31), (30, refusal(4, "LineTooLong"), 30)):
            plan = Cursor(LINES_OF_30_AND_31, limits=Limits(line=limit), desk=Desk(30))
            printed = dict(self.driver.one(plan))
            self.holds(f"limit {limit}", printed["answer"] == answer, printed)
            desk = numbers_of(printed["desk"])
            self.holds(f"limit {limit}, desk", (desk[0], desk[2]) == (held, 30), desk)

    def test_skipped_columns(self) -> None:
        text = (
            b"# first\n@@begin_db\n@@db_spec name attr size foo\n/a 32 7 x\n/a/b 0 8 x\n@@end_db\n"
        )
        for is_new in (False, True):
            printed = dict(self.driver.one(Cursor(text, is_new=is_new)))
            self.holds(
                "entries, shown ones, skipped columns", printed["entries"] == "2 2 8", printed
            )
            self.holds("the desk", printed["desk"] == "10 28 0", printed)
