"""A comparison that is carried out, with its outputs and its state file."""
from __future__ import annotations

import os
from collections.abc import Iterable, Sequence
from contextlib import suppress
from typing import TYPE_CHECKING, NamedTuple

from aide_compare.base.ending import Fault, fault_of, write_blocks
from aide_compare.base.files import blocks_of, nameless, private_place
from aide_compare.base.program import is_for_looking
from aide_compare.base.replacement import ANYBODY_READS, remove, replace
from aide_compare.base.rights import become_owner
from aide_compare.commands.compare_request import CompareRequest
from aide_compare.compare.comparison import Comparison, ComparisonInput, Judgement
from aide_compare.compare.history import keep_night
from aide_compare.compare.outputs import Output, descriptor_of, file_output, open_output
from aide_compare.compare.state import failed_state, parse_state, read_state
from aide_compare.compare.unpack import Opened
from aide_compare.compare.work import compare_opened, open_databases
from aide_compare.lines.change import Counts

if TYPE_CHECKING:
    from aide_compare.changes.judged import Judged
    from aide_compare.show.outputs import Maker


def keep_failure(path: str | None, error: Exception) -> None:
    """Writes into the state file that a run has failed, as by a fault in the defaults: otherwise
    the result of an earlier run would look like that of today. If it cannot be made or written, as
    on a full disk, it is removed."""
    if path is None or is_for_looking():
        return
    with suppress(Exception):  # The failure itself is told all the same.
        if os.path.lexists(path):
            read_state(path)  # What is no state stays, such as a database or a device.
        become_owner(path)
        state = failed_state(error)
        try:
            replace(path, state.text(), ANYBODY_READS, "the state file", makes_directory=False)
        except Exception:
            remove(path)
        keep_night(path, state)


class JobOutput:
    """An output: its place, which is open before anything is compared, and what makes its bytes.
    These are made before any place gets its own. An output `of_failure` is made anew after a
    failure: its few bytes are in memory, so that it needs no disk and no descriptor."""

    def __init__(self, place: Output, make: Maker, of_failure: bool = False) -> None:
        self.place = place
        self.make = make
        self.of_failure = of_failure
        self.blocks: Iterable[bytes] = ()
        self.is_put = False  # Its place has bytes, or has refused them.

    def write(self, comparison: Comparison, judged: Judged | None) -> None:
        """Makes the bytes."""
        blocks = self.make(comparison, judged)
        if self.of_failure:
            self.blocks = [b"".join(blocks)]
        else:
            target = nameless()
            write_blocks(target, blocks, f"cannot keep an output in {private_place()}")
            self.blocks = blocks_of(target)

    def put(self) -> None:
        """Hands the bytes to the place."""
        self.is_put = True
        self.place(self.blocks)


def output_rows(request: CompareRequest) -> list[JobOutput]:
    """The outputs that options name, with their places open."""
    return [
        JobOutput(open_output(path, f"the output of {row.option.name}"), row.make)
        for row, path in request.outputs
    ]


def state_bytes(comparison: Comparison, _judged: Judged | None) -> Sequence[bytes]:
    return [comparison.state().text()]


def state_output(path: str) -> Output:
    """The state file as a place, whose bytes are a night of the history too."""
    output = file_output(path, "the state file", ANYBODY_READS)

    def put(blocks: Iterable[bytes]) -> None:
        text = b"".join(blocks)
        output([text])
        state = parse_state(text)
        try:
            keep_night(path, state)
        except Exception:
            if state.status <= 7:  # Otherwise the state has another cause.
                raise

    return put


class JobOutputs(NamedTuple):
    """What a command wants of a comparison beside the outputs that options name."""

    before: Sequence[JobOutput] = ()
    after: Sequence[JobOutput] = ()
    judges: bool = True  # One of these needs the changes with their standings.
    # Not of a comparison by hand over the state of the daily job.
    keeps_failure: bool = True


class ComparisonJob:
    """A comparison that is carried out, and its outputs."""

    def __init__(self, request: CompareRequest, work: ComparisonInput, outputs: JobOutputs) -> None:
        self.options = request
        self.request = work
        self.outputs = outputs
        self.rows: Sequence[JobOutput] = ()
        self.judged: Judged | None = None

    def carry_out(self) -> Comparison:
        """Compares, judges, and writes what is wanted. Root opens the databases, and then becomes
        for good the user in whose directories the baseline and the outputs are."""
        comparison = Comparison(self.request)
        opened: Sequence[Opened] = ()
        try:
            opened = open_databases(comparison)
        except Exception as error:
            comparison.fail(error)
        self._open_outputs(comparison)
        if not comparison.has_failed:
            compare_opened(comparison, opened)
        try:
            if not comparison.has_failed:
                self._write(comparison)
        except Exception as error:
            comparison.fail(error)
        if comparison.has_failed:
            self._write_failure(comparison)
        return comparison

    def _open_outputs(self, comparison: Comparison) -> None:
        """Opens the places of the outputs, as the user in whose directories they and the baseline
        are may write them. Of two failures the first one is kept, and both are told."""
        state_path = self.options.state
        if comparison.has_failed and not self.outputs.keeps_failure:
            state_path = None
        try:
            if not self.options.user:
                files = [path for path in self.options.paths if descriptor_of(path) is None]
                become_owner(self.request.old, *files)
            rows = [*self.outputs.before, *output_rows(self.options)]
            if state_path:
                place = state_output(state_path)
                rows.append(JobOutput(place, state_bytes, self.outputs.keeps_failure))
        except Fault as fault:
            first = comparison.fault
            self._keep_failure(first or fault)
            if first:
                raise Fault(first.status, first.text, *first.more, fault.text) from None
            raise
        self.rows = [*rows, *self.outputs.after]

    def _keep_failure(self, error: Exception) -> None:
        if self.outputs.keeps_failure:
            keep_failure(self.options.state, error)

    def _write(self, comparison: Comparison) -> None:
        """Judges a comparison, makes all outputs, and then hands them to their places in their
        order."""
        if self.outputs.judges and comparison.status == 0:
            comparison.judgement = Judgement(Counts())
        elif self.outputs.judges and comparison.differs:
            # The modules for it are more than all others together.
            from aide_compare.show.judgement import judge

            self.judged = judge(comparison)
        for row in self.rows:
            row.write(comparison, self.judged)
        for row in self.rows:
            row.put()

    def _write_failure(self, comparison: Comparison) -> None:
        """Each place of a failure gets the cause, whatever becomes of the others."""
        failed: Exception | None = None
        for row in self.rows:
            if row.of_failure:
                try:
                    row.write(comparison, self.judged)
                    row.put()
                except Exception as error:
                    failed = failed or error
        if failed:
            self._keep_failure(failed)
            if not comparison.fault or comparison.fault.text != fault_of(failed).text:
                raise failed
