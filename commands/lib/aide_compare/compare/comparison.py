"""What is compared, and what comes out of it, as values."""
from __future__ import annotations

import time
from collections.abc import Mapping, Sequence
from types import MappingProxyType
from typing import TYPE_CHECKING, Any, NamedTuple

from aide_compare.base.ending import DeviceFault, Fault, fault_of
from aide_compare.base.escapes import shown, shown_lines
from aide_compare.base.options import MAX_DATABASE_BYTES, MAX_REPORT_BYTES
from aide_compare.base.program import Answer
from aide_compare.base.words import KINDS, SIDES
from aide_compare.compare.configuration import NONE, ConfigurationTexts
from aide_compare.compare.line_room import NO_OTHERS, Others
from aide_compare.compare.state import MAX_ERROR, State
from aide_compare.compare.unpack import Copy
from aide_compare.lines.change import Counts
from aide_compare.lines.reader import EndCounts, Reader, reader_over

if TYPE_CHECKING:
    from aide_compare.compare.exclusions import Exclusions

MAX_PATH_TEXT = 4000

NO_COPIES: Mapping[str, Copy] = MappingProxyType({})


class ComparisonInput(NamedTuple):
    """Two databases to compare, and how."""

    old: str  # Its path.
    new: str
    configuration: str = NONE
    after: str = ""  # The text of -A.
    max_size: int = MAX_DATABASE_BYTES  # Of a database, unpacked.
    max_report: int = MAX_REPORT_BYTES  # Of the lines or the report.
    max_age: int = 0  # Of the new database in seconds; 0 for any.
    exclusions: Exclusions | None = None
    trusted: Sequence[str] = ()  # The paths of a trusted pair, or none.
    copies: Mapping[str, Copy] = NO_COPIES  # By side, of databases that were opened before.
    target: int | None = None  # The descriptor of a file for the lines.


class Refusal(Fault):
    """The program has compared nothing: its error lines say why, and hints explain them."""

    def __init__(self, answer: Answer, hints: Sequence[str]) -> None:
        super().__init__(answer.status, "the program has compared nothing")
        self.answer = answer
        self.hints = hints


class Lines(NamedTuple):
    """The lines of the program, in a private file, and what the last of them says."""

    fd: int
    is_cut: bool  # The file has no more bytes than a request allows.
    end: EndCounts
    # Those that are not there, of changes in which no side is root's.
    others: Others = NO_OTHERS


class Judgement(NamedTuple):
    """What the changes mean together."""

    standings: Counts | None = None  # None if nobody has judged them.
    doubts: Sequence[str] = ()  # What was not judged, and why.
    # How many of them the lines of the list leave out, by their numbers.
    left_out: Mapping[int, int] = MappingProxyType({})


class Comparison:
    """A comparison: what is known of it so far, and then what came out of it. Only compare/work.py
    fills it; the judgement is a value of its own."""

    def __init__(self, request: ComparisonInput) -> None:
        self.request = request
        self.texts = ConfigurationTexts(b"", b"")  # What the program reads beside the databases.
        self.time = 0  # When it ended.
        self.status = 0
        self.fault: Fault | None = None  # Why nothing was compared, unless the program says it.
        self.errors = b""  # The error lines of the program.
        self.hints: Sequence[str] = ()  # What explains them.
        self.notes: list[str] = []  # What was not compared, or not as it was meant.
        self.warnings: list[str] = []  # What is mailed even if nothing differs.
        # By side, as far as it is known:
        self.copies: dict[str, Copy] = {}
        self.skipped: Mapping[str, Sequence[str]] = {}  # Columns.
        self.lines: Lines | None = None  # None if nothing was compared.
        self.judgement = Judgement()

    @property
    def differs(self) -> bool:
        return 1 <= self.status <= 7

    @property
    def has_failed(self) -> bool:
        return self.status > 7

    def known_lines(self) -> Lines:
        """Its lines; a Fault if there are none."""
        if self.lines is None:
            raise DeviceFault("nothing is known of the changes")
        return self.lines

    def whole_lines(self) -> Lines:
        """Its lines; a Fault if they are too many for those of root's to be all there."""
        lines = self.known_lines()
        if lines.is_cut:
            raise self._fault_of_size()
        return lines

    def reader(self) -> Reader:
        """A Reader of its lines; a Fault if they are too many to be all there."""
        lines = self.whole_lines()
        if lines.others:
            raise self._fault_of_size()
        return reader_over(lines.fd)

    def _fault_of_size(self) -> Fault:
        return DeviceFault(f"the changes have more than {self.request.max_report} bytes")

    def fail(self, error: BaseException) -> None:
        """Something has ended it."""
        self.time = int(time.time())
        if isinstance(error, Refusal):
            self.status = error.answer.status
            self.errors = error.answer.errors
            self.hints = error.hints
        else:
            self.fault = fault_of(error)
            self.status = self.fault.status

    def state(self) -> State:
        """The State that says it."""
        # The names of databases that were not opened are known too.
        names = {"old": self.request.old, "new": self.request.new}
        values: dict[str, Any] = {side: shown(name, MAX_PATH_TEXT) for side, name in names.items()}
        for side, copy in self.copies.items():
            values[side] = shown(copy.name, MAX_PATH_TEXT)
            values[f"{side}_sha256"] = copy.sha256
            if side in SIDES:
                values[f"{side}_written"] = copy.written
        for side, columns in self.skipped.items():
            values[f"skipped_{side}"] = list(columns)
        if self.lines and not self.has_failed:
            values.update(zip(KINDS, self.lines.end.kinds), standings=self.judgement.standings)
        return State(self.status, self.time, error=self._first_error()[:MAX_ERROR], **values)

    def _first_error(self) -> str:
        """What went wrong; nothing if nothing did."""
        if self.fault:
            return f"aide-compare: {self.fault.text}"
        if self.has_failed:
            for line in shown_lines(self.errors).split("\n"):
                if line and not line.endswith(" skipped"):
                    return line
        return ""
