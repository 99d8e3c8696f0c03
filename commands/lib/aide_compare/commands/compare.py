"""aide-compare: compares two databases, and prints what differs."""
from __future__ import annotations

import os
import re
from collections.abc import Iterable, Iterator, Sequence
from functools import partial
from typing import TYPE_CHECKING

from aide_compare.base import kinds
from aide_compare.base.ending import Fault, ReaderGone, write_blocks
from aide_compare.base.escapes import encoded, guarded, shown
from aide_compare.base.files import blocks_of
from aide_compare.base.options import STATE, option
from aide_compare.base.parser import Help, Parser, filled, read_defaults
from aide_compare.base.program import NOTICE, is_for_looking, need_proof
from aide_compare.base.rights import give_up
from aide_compare.base.words import date_of, words_of_side
from aide_compare.commands.compare_request import (
    EPILOG,
    PrintRequest,
    refuse_names,
    with_defaults,
    work_request,
)
from aide_compare.commands.comparison_job import ComparisonJob, JobOutputs, JobOutput, keep_failure
from aide_compare.compare.comparison import Comparison, ComparisonInput
from aide_compare.compare.outputs import STDOUT, notes
from aide_compare.compare.report import report_of
from aide_compare.mail.message import clean
from aide_compare.show.notes import no_difference, told_of
from aide_compare.show.outputs import JSON

if TYPE_CHECKING:
    from aide_compare.base.paths import Pattern
    from aide_compare.changes.judged import Judged

NO_LIST = "the report does not use the list: it contains what is left out, and AIDE's status counts"
# What standard output gets, unless -q says otherwise: what people read first, the changes of some
# paths, the report of AIDE, or nothing.
BRIEF = "brief"
ONLY = "only"
REPORT = "report"
NOTHING = ""
REPORT_OPTION = r"(?m)^[ \t]*report_"


def form_of(request: PrintRequest) -> str:
    """What standard output gets: nothing if it is the place of an output."""
    if request.pattern:
        return ONLY
    if request.wants_report:
        return REPORT
    if STDOUT in request.places:
        return NOTHING
    if re.search(REPORT_OPTION, request.after):
        return REPORT
    return BRIEF


class Printer:
    """Prints a comparison: first what there is to say beside it, then what was found, so that on a
    terminal nothing pushes that off the screen."""

    def __init__(self, request: PrintRequest, patterns: Sequence[str] = ()) -> None:
        self.request = request
        self.patterns = patterns  # Of --exclude, on the command line.
        self.form = form_of(request)
        self.is_printed = self.form != NOTHING and not request.is_quiet
        place = partial(write_blocks, STDOUT, words="cannot write the report")
        self.printed = JobOutput(place, self._printed)

    def job(self, work: ComparisonInput, keeps_failure: bool) -> ComparisonJob:
        """The comparison that prints so. Its failure may be kept in the state file."""
        before = [JobOutput(notes, self._notes)]
        after = [JobOutput(notes, self._failure, of_failure=True)]
        if self.is_printed:
            before.append(self.printed)
            after.append(JobOutput(self.printed.place, self._unjudged, of_failure=True))
        judges = self.form != REPORT or self.request.paths
        outputs = JobOutputs(before, after, bool(judges), keeps_failure)
        return ComparisonJob(self.request, work, outputs)

    def status_of(self, comparison: Comparison) -> int:
        """The status of the command. A report has AIDE's."""
        if self.form == REPORT:
            return comparison.status
        return comparison.state().told_status

    def _printed(self, comparison: Comparison, judged: Judged | None) -> Iterable[bytes]:
        """What was asked for, and that it is not proved if that is so."""
        if is_for_looking():
            yield encoded(f"{NOTICE}\n")
        yield from self._answer(comparison, judged)

    def _answer(self, comparison: Comparison, judged: Judged | None) -> Iterable[bytes]:
        """What was asked for. If the changes are not known, that is the report."""
        if self.form != REPORT and comparison.status == 0:
            return [no_difference(comparison)]
        if self.request.pattern:
            from aide_compare.show.changes import changes_with_values

            return changes_with_values(comparison, judged, self.request.pattern)
        if self.form == BRIEF and judged is not None:
            from aide_compare.show.brief import brief_of

            return [brief_of(judged)]
        blocks = blocks_of(report_of(comparison))
        if self.form == REPORT:
            return blocks
        return map(clean, blocks)

    def _unjudged(self, comparison: Comparison, _judged: Judged | None) -> Iterable[bytes]:
        """The first paths of the changes, if something has failed before any was printed."""
        if self.form == BRIEF and comparison.has_failed and not self.printed.is_put:
            from aide_compare.show.unjudged import unjudged_lines

            yield encoded("".join(f"{line}\n" for line in unjudged_lines(comparison)))

    def _notes(self, comparison: Comparison, judged: Judged | None) -> Iterable[bytes]:
        """What is not in a report: it names only the descriptors of the databases."""
        text = told_of(comparison, self.request.is_quiet, self.request.is_verbose)
        if judged and not self.request.is_quiet:
            notes = self._notes_of_list(comparison, judged)
            text += "".join(f"aide-compare: {guarded(note)}\n" for note in notes)
        if self.is_printed and comparison.differs:
            exclusions = comparison.request.exclusions
            if self.form == REPORT and exclusions and exclusions.lines:
                text += f"aide-compare: {NO_LIST}\n"
            for side, copy in comparison.copies.items():
                line = f"{words_of_side(side)} database: {shown(copy.name)}"
                if copy.written is not None:
                    line += f", written {date_of(copy.written)}"
                if self.request.is_verbose:
                    line += f", SHA-256 {copy.sha256}"
                text += f"aide-compare: {line}\n"
            is_brief = self.form == BRIEF and judged is not None
            counts = comparison.judgement.standings
            if counts and not (is_brief and os.isatty(1)):
                text += f"aide-compare: {counts.words()}\n"
            if counts and counts.left_out and not is_brief:
                text += f"aide-compare: {counts.left_out_words()}\n"
        yield encoded(text)

    def _notes_of_list(self, comparison: Comparison, judged: Judged) -> Iterator[str]:
        """What a list does not do that somebody may expect: a pattern that leaves nothing out, and
        with `-v` what no line leaves out."""
        exclusions = comparison.request.exclusions
        if exclusions is None:
            return
        for pattern in dict.fromkeys(self.patterns):
            numbers = exclusions.numbers_of(pattern)
            if not any(comparison.judgement.left_out.get(number) for number in numbers):
                yield f"--exclude {shown(pattern, 200)} leaves out no change{hint_for(pattern)}"
        if self.request.is_verbose:
            from aide_compare.show.not_left_out import Reasons

            yield from Reasons(exclusions).notes(judged)

    def _failure(self, comparison: Comparison, _judged: Judged | None) -> Iterable[bytes]:
        """Why nothing was compared. Who has gone needs no reason."""
        if comparison.has_failed and not isinstance(comparison.fault, ReaderGone):
            yield encoded(told_of(comparison, self.request.is_quiet, self.request.is_verbose))


def hint_for(pattern: str) -> str:
    """What names the contents of a directory, if the pattern may be meant for them."""
    if pattern.endswith("/**") or not pattern.startswith("/"):
        return ""
    return f"; all that is in a directory: {shown(pattern.rstrip('/'), 200)}/**"


def print_comparison(
    request_class: type[PrintRequest], help: Help, arguments: Sequence[str]
) -> int:
    """Compares and prints as the arguments of a command ask for it. Returns the status."""
    command_line = Parser(request_class, help).parse(arguments)
    own_request = filled(request_class, command_line, {})
    refuse_names(own_request)
    if own_request.user:
        give_up(own_request.user)
    # The state of the defaults is that of the daily job, whose failures it has.
    keeps_failure = own_request.state is not None
    try:
        defaults = read_defaults(arguments)
        request = with_defaults(request_class, command_line, defaults)
        refuse_without_proof(request)
        printer = Printer(request, own_request.exclude)
        job = printer.job(work_request(request, defaults), keeps_failure)
    except Fault as fault:
        keep_failure(own_request.state, fault)
        raise
    return printer.status_of(job.carry_out())


def refuse_without_proof(request: PrintRequest) -> None:
    """Refuses what a program reads, if the program is not proved."""
    if request.state:
        need_proof(STATE.name)
    if any(row.option == JSON for row, _ in request.outputs):
        need_proof(JSON.name)
    if form_of(request) == REPORT:
        need_proof("the report")


HELP = Help(
    name="aide-compare compare",
    usage="aide-compare [compare] [OPTIONS] [OLD NEW]",
    description="""\
Compares two AIDE databases, plain or compressed by gzip, and prints what differs,
the most severe first, and with --report the report of aide-compare-program(8).""",
    epilog=f"{EPILOG} With --report that of aide-compare-program(8), by all changes.",
)


class CommandRequest(PrintRequest):
    """What `compare` asks for."""

    wants_report: bool = option(
        "--report", "print the report of the program, as with an option report_* in -A"
    )
    pattern: Pattern | None = option(
        "--only",
        "print only the changes of these paths, such as '/etc/**', with their values",
        "PATTERN",
        kind=kinds.pattern,
        is_single=True,
    )


def main(arguments: Sequence[str]) -> int:
    return print_comparison(CommandRequest, HELP, arguments)
