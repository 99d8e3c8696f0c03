"""Sessions over files in memory whose standard output or standard error fails, each beside the
definitions."""
from __future__ import annotations

from collections.abc import Iterable, Iterator
from typing import NamedTuple, Union

from tests.lib.answer import Answer
from tests.oracle.lines import lines_answer_of
from tests.oracle.session import BAD_DEVICE, Beginning, answer_of, refused
from tests.planned.databases import NEW, OLD, UNORDERED
from tests.planned.driver import DeskSeen, PlannedTest, Printed, Sink, numbers_of, sink_of
from tests.planned.faults import PATHS
from tests.planned.plans import Call, Memory, Session, Writer
from tests.program.real_files.folder import EMPTY, SKIPPING, names
from tests.program.refusal_rows import SOUND

CONFIG = b"/conf"
COMPARE = [b"-E", b"-c", CONFIG]
FULL = refused(b"cannot write the report", BAD_DEVICE).errors
MANY = 1000
# What the page before a writer holds.
PAGE = 32768
# After how many bytes a sink below a page fails: about the border of the first page and of what the
# sink takes at once, and in the last page.
CUTS = [0, 1, 4095, 4096, 4097, 32767, 32768, 32769, 36864, 40000, 50000, 50100]
TRUSTED = [b"--trusted-old", b"/trusted_old", b"--trusted-new", b"/trusted_new"]
# What a command line of lines has beside a comparison.
MORE: tuple[list[bytes], ...] = ([], TRUSTED, [*TRUSTED, b"--without", b"/other\n/*"])
REPORT_CALLS = (Call.SESSION, Call.SESSION_ON, Call.RUN_PROGRAM)
LINES_CALLS = (Call.LINES_SESSION_ON, Call.RUN_LINES_PROGRAM)
MODES = b"@@begin_db\n@@db_spec name perm uid gid\n/kept %s 0 0\n/opened %s 0 0\n@@end_db\n"
MODES_OLD, MODES_NEW = MODES % (b"40755", b"40700"), MODES % (b"40700", b"40777")
# The trusted machine has the new mode of `/kept`, and no `/opened`.
ONE_MODE = b"@@begin_db\n@@db_spec name perm uid gid\n/kept %s 0 0\n@@end_db\n"
CUT = b"@@begin_db\n@@db_spec name perm\n/kept 40755\n"


class Seen(NamedTuple):
    status: int
    out: Sink
    err: Sink
    desk: DeskSeen
    trusted_desk: DeskSeen


def seen_in(printed: Printed) -> Seen:
    (_, status), *sinks = printed[:5]
    out, err = (sink_of(sinks[at][1], sinks[at + 1][1]) for at in (0, 2))
    desks = [DeskSeen(*numbers_of(numbers)) for _, numbers in printed[5:]]
    return Seen(int(status[len("Some(") : -1]), out, err, *desks)


def session_of(words: list[bytes], old: bytes = OLD, new: bytes = NEW, **more: object) -> Session:
    """A session over a configuration and two databases."""
    files = {CONFIG: PATHS, b"/old": old, b"/new": new}
    return Session(words, files, **more)  # type: ignore[arg-type]


def wanted_of(session: Session) -> Answer:
    """What the definitions want of a session."""
    files = {**session.files, **session.trusted}
    if session.call in LINES_CALLS:
        return lines_answer_of(session.words, files.get)
    return answer_of(session.words, files.get)


class Wanted(NamedTuple):
    output: Union[bytes, Beginning]
    errors: bytes
    status: int


class SessionTest(PlannedTest):
    def play(self, session: Session) -> Seen:
        return seen_in(self.driver.one(session))

    def ends(self, label: str, trials: Iterable[tuple[Session, Wanted]]) -> None:
        """Each session ends as wanted. A stumble of its output is the last call of it."""
        found: list[str] = []
        count = 0
        for session, want, printed in self.driver.each(trials):
            count += 1
            seen = seen_in(printed)
            given = Wanted(seen.out.sent, seen.err.sent, seen.status)
            if given != want:
                found.append(f"{session!r:.1000}: wanted {want!r:.300}, given {given!r:.300}")
            if seen.out.later:
                found.append(f"{session!r:.1000}: {seen.out.later} calls after a stumble")
        self.holds(label + ", trials", count > 0)
        self.compare(label, found)


def unwritten(session: Session, whole: bytes) -> Iterator[tuple[Session, Wanted]]:
    """Standard output fails at each byte for good, or once there or at the flush."""
    for sound in range(len(whole) + 1):
        want = Wanted(whole[:sound], FULL, BAD_DEVICE)
        if sound < len(whole):
            yield session._replace(out=Writer(7, sound)), want
        yield session._replace(out=Writer(7, sound, flush_fails=True, once=True)), want


class OutputTest(SessionTest):
    def test_writers(self) -> None:
        session = session_of(COMPARE)
        whole = wanted_of(session).output
        self.ends("standard output fails", unwritten(session, whole))

    def test_memory(self) -> None:
        """Standard output in memory is refused each allocation in turn."""
        session, found = session_of(COMPARE), list[str]()
        whole = wanted_of(session)
        for growth in range(MANY):
            seen = self.play(session._replace(out=Memory(growth)))
            given = (seen.status, seen.err.sent)
            if not seen.out.stumbles:
                found += [] if (seen.out.sent, *given) == (whole.output, 7, b"") else [repr(seen)]
                break
            is_right = given == (BAD_DEVICE, FULL) and whole.output.startswith(seen.out.sent)
            found += [] if is_right else [f"growth {growth}: {seen!r:.500}"]
        self.compare("standard output is refused memory", found)
        self.holds("growths", 3 < growth < MANY - 1, growth)

    def test_pages(self) -> None:
        """A report of several pages: no page is passed on again. One of less than a page reaches
        the sink below when it is flushed."""
        session = session_of(COMPARE, names(2000), EMPTY)
        whole = wanted_of(session).output
        self.holds("pages", len(whole) > PAGE and CUTS[-1] < len(whole), len(whole))
        plan = Writer(4096, flush_fails=True, once=True, has_page=True)
        trials = [
            (session._replace(out=plan._replace(sound=cut)), Wanted(whole[:cut], FULL, BAD_DEVICE))
            for cut in CUTS
        ]
        self.ends("a page is not taken", trials)
        seen = self.play(session_of(COMPARE, out=Writer(4096, 0, has_page=True)))
        self.holds("one page", (seen.out.stumbles, seen.status) == (1, BAD_DEVICE), seen)
        seen = self.play(session._replace(out=Writer(4096, has_page=True)))
        self.holds("all pages", (seen.out.sent, seen.out.flushed) == (whole, len(whole)), seen)

    def test_errors(self) -> None:
        """Standard error fails: output and status are unchanged."""
        minimal = [*COMPARE, b"-A", b"report_level=minimal"]
        skipping = b"@@begin_db\n@@db_spec name size foo\n/a 1 2\n@@end_db\n"
        for words, old in ((minimal, UNORDERED), (minimal, skipping), ([b"-E"], b"")):
            session = session_of(words, old, SOUND)
            whole = wanted_of(session)
            self.holds("error lines", whole.errors)
            want = Wanted(whole.output, b"", whole.status)
            plan = Writer(1, 0, flush_fails=True)
            self.ends("standard error fails", [(session._replace(err=plan), want)])


class CallsTest(SessionTest):
    """Each call of a session, where nothing fails."""

    def right(self, session: Session) -> Seen:
        self.ends(f"{session.call!r} {session.words}", [(session, Wanted(*wanted_of(session)))])
        return self.play(session)

    def test_reports(self) -> None:
        for call in REPORT_CALLS:
            for old, new in ((OLD, NEW), (OLD, OLD), (SKIPPING, NEW), (OLD, UNORDERED)):
                self.right(session_of(COMPARE, old, new, call=call))
            self.right(session_of([*COMPARE, b"-A", b"report_level=summary"], call=call))
            self.right(session_of([b"-D", b"-c", CONFIG], call=call))
            self.right(session_of([b"-E", b"-D", b"-c", CONFIG], call=call))

    def test_lines(self) -> None:
        four = {b"/trusted_old": ONE_MODE % b"40755", b"/trusted_new": ONE_MODE % b"40700"}
        for call in LINES_CALLS:
            for trusted in (four, {**four, b"/trusted_old": four[b"/trusted_new"]}):
                for more in MORE:
                    words = [*COMPARE, *more]
                    self.right(session_of(words, MODES_OLD, MODES_NEW, trusted=trusted, call=call))
            self.right(session_of([b"-D", b"-c", CONFIG], call=call))
            for unsound in ({**four, b"/trusted_new": CUT}, {b"/trusted_old": CUT}):
                words = [*COMPARE, *TRUSTED]
                self.right(session_of(words, MODES_OLD, MODES_NEW, trusted=unsound, call=call))

    def test_refused_words(self) -> None:
        """Half a trusted pair, a check with one, and a list with a fault, which comes first."""
        for call in LINES_CALLS:
            for words, status in (
                ([*COMPARE, b"--trusted-old", b"/o"], 15),
                ([*COMPARE, b"--trusted-old", b"/o", b"--trusted-new", b""], 15),
                ([*COMPARE, b"--trusted-old", b"", b"--trusted-new", b"/n"], 15),
                ([b"-D", b"-c", CONFIG, *TRUSTED], 15),
                ([b"-E", b"-c", b"/none", *TRUSTED, b"--without", b"/a\nb"], 17),
            ):
                seen = self.right(session_of(words, call=call))
                self.holds(f"{words}", seen.status == status, seen)

    def test_desks(self) -> None:
        """The lines of both entries of a path are on the desk that the caller gave at once."""
        for call in (Call.SESSION_ON, Call.RUN_PROGRAM, *LINES_CALLS):
            seen = self.right(session_of(COMPARE, MODES_OLD, MODES_NEW, call=call))
            self.holds(f"{call!r}", seen.desk.peak >= 15 + 15, seen.desk)
        four = {b"/trusted_old": ONE_MODE % b"40755", b"/trusted_new": ONE_MODE % b"40700"}
        words = [*COMPARE, *TRUSTED]
        for call in LINES_CALLS:
            seen = self.right(session_of(words, MODES_OLD, MODES_NEW, trusted=four, call=call))
            self.holds(f"{call!r}, trusted", seen.trusted_desk.peak >= 15 + 15, seen.trusted_desk)
