"""aide-compare accept: a database becomes the baseline if its SHA-256 is the one that was given;
whole, or except what stays open."""
from __future__ import annotations

import gzip
import os
from collections.abc import Iterator, Sequence
from contextlib import closing, suppress
from typing import NamedTuple

from aide_compare.base.directories import closed_after
from aide_compare.base.ending import DeviceFault, Fault, Status, say, tell, usage_fault
from aide_compare.base.escapes import shown
from aide_compare.base.files import blocks_of, nameless
from aide_compare.base.options import KEEP_OPEN, MAX_SIZE, QUIET, SHA256, Request, Operand, field
from aide_compare.base.parser import Defaults, Help, read, read_defaults
from aide_compare.base.paths import Pattern
from aide_compare.base.terminal import answer_to
from aide_compare.base.words import KINDS, date_of, minute_of, words_of_kinds
from aide_compare.commands.compare import Printer
from aide_compare.commands.compare_request import PrintRequest, with_defaults, work_request
from aide_compare.commands.defaults import machines_databases
from aide_compare.compare.baseline import Baseline
from aide_compare.compare.kept_open import Merged, keep_open
from aide_compare.compare.soundness import refuse_unsound
from aide_compare.compare.state import State
from aide_compare.compare.unpack import Copy, Opened, copy_opened, open_database

LEVEL = 6  # Of gzip, as AIDE has it.


class AcceptRequest(NamedTuple):
    """What the options ask for."""

    new: str
    baseline: str
    digest: str  # The first digits of the SHA-256 of the new database.
    keep_open: Sequence[Pattern]
    max_size: int
    came: str = "written"  # What the time of the new database says.


def packed(copy: Copy) -> int:
    """A descriptor of a database, compressed by gzip."""
    target = nameless()
    with open(os.dup(target), "wb") as file:
        with gzip.GzipFile("", "wb", LEVEL, file, mtime=0) as member:
            for block in blocks_of(copy.fd):
                member.write(block)
    return target


class Accepted(NamedTuple):
    """What was done."""

    new: Copy
    # The SHA-256 of the former baseline; None if there was none, "" if it cannot be read.
    former: str | None
    sha256: str  # Of the baseline now.
    merged: Merged | None  # None if nothing stays open.

    @property
    def is_replaced(self) -> bool:
        return self.former != self.sha256


def former_digest(baseline: Baseline, max_size: int) -> str | None:
    """The SHA-256 of what is the baseline; None if there is none, "" if it cannot be read."""
    if baseline.former is None:
        return None
    descriptor = baseline.reading()
    if descriptor is not None:
        with suppress(Fault):
            return copy_opened(Opened("old", baseline.path, descriptor), max_size).sha256
    return ""


def merge(request: AcceptRequest, new: Copy, baseline: Baseline) -> Merged:
    """The new database with the old entries of what stays open."""
    descriptor = baseline.reading()
    if descriptor is None:
        text = (
            f"there is no baseline {shown(baseline.path)} that can be read, so nothing stays open"
        )
        raise DeviceFault(text)
    old = copy_opened(Opened("old", baseline.path, descriptor), request.max_size)
    refuse_unsound(new, old)
    merged = keep_open(old, new, request.keep_open)
    for unused in merged.unused:
        text = f"refused: nothing that differs is kept open by {shown(unused.text, 200)}"
        raise Fault(Status.DATABASE, text)
    refuse_unsound(merged.copy)
    return merged


def accept(request: AcceptRequest) -> Accepted:
    """Makes the new database the baseline. A database that is not meant is a Fault of status 24.
    Root opens both, and then becomes for good the user in whose directory the baseline is."""
    opened = open_database("new", request.new)
    with closing(Baseline(request.baseline)) as baseline:
        return accept_opened(request, opened, baseline)


def hints_of_digest(request: AcceptRequest, opened: Opened, descriptor: int) -> Iterator[str]:
    """A line if a digest is that of the packed file."""
    if opened.is_packed and opened.written is not None:
        if Copy(descriptor, request.new, None).sha256.startswith(request.digest):
            yield f"that is the digest of the packed file: zcat {shown(request.new)} | sha256sum"


def accept_opened(request: AcceptRequest, opened: Opened, baseline: Baseline) -> Accepted:
    """The same with both open, the baseline locked."""
    with closed_after(os.dup(opened.fd)) as descriptor:
        new = copy_opened(opened, request.max_size)
        if not new.sha256.startswith(request.digest):
            raise Fault(
                Status.DATABASE,
                f"refused: {shown(request.new)} is not the database that was reported",
                f"the SHA-256 that was given: {request.digest}",
                f"the SHA-256 of the database: {new.sha256}",
                *hints_of_digest(request, opened, descriptor),
            )
    baseline.settle()
    former = former_digest(baseline, request.max_size)
    merged = None
    next_baseline = new
    if request.keep_open:
        merged = merge(request, new, baseline)
        next_baseline = merged.copy
    else:
        refuse_unsound(new)
    accepted = Accepted(new, former, next_baseline.sha256, merged)
    if accepted.is_replaced:
        source = next_baseline.fd
        if opened.is_packed:
            source = packed(next_baseline)
        baseline.replace(source)
    return accepted


HELP = Help(
    name="aide-compare accept",
    usage="%(prog)s [OPTIONS] [NEW BASELINE]",
    description="""\
Makes NEW the baseline if DIGEST is the SHA-256 of its unpacked bytes. The former baseline becomes
BASELINE.previous. Without a digest, on a terminal, it shows what differs and asks.""",
    epilog="""\
If another user can write in the directory of BASELINE, or in one above it, all changes there are
made with the privileges of that user, and the new baseline belongs to that user. A BASELINE
that is a link is refused.

Status: 0 NEW is the baseline; 15 bad arguments; 18 a file cannot be read or written; 22 out of
memory; 24 refused: NEW is another database, or no sound one, or a part of it cannot stay
open.""",
)
YES = ("y", "yes")


def compare_and_print(new: str, baseline: str, defaults: Defaults) -> State:
    """Compares as aide-compare does, with the same defaults and privileges, and prints what
    differs."""
    request = with_defaults(PrintRequest, {"databases": [baseline, new]}, defaults)
    ended = Printer(request).job(work_request(request, defaults), False).carry_out()
    if ended.status > 7:
        raise Fault(ended.status, "nothing was compared, so nothing is accepted")
    return ended.state()


def wanted_after_question(new: str, baseline: str, defaults: Defaults) -> str:
    """The SHA-256 of a new database that a person wants who has seen its changes."""
    state = compare_and_print(new, baseline, defaults)
    line = f"New database: {shown(new)}"
    if state.new_written is not None:
        line += f", written {minute_of(state.new_written)}"
    tell("", line, f"SHA-256 {state.new_sha256}")
    if answer_to(f"Make it the baseline {shown(baseline)}? [y/N] ") not in YES:
        raise Fault(Status.DATABASE, "nothing is accepted")
    return state.new_sha256


class AcceptOptions(Request):
    """What the options ask for."""

    is_quiet: bool = field(QUIET, help="do not print what was done")
    digest: str | None = field(SHA256)
    max_size: int = field(MAX_SIZE)
    keep_open: Sequence[Pattern] = field(KEEP_OPEN)
    files: Sequence[str] = field(
        Operand(
            "NEW BASELINE",
            "the new database, plain or compressed by gzip, and the file that it replaces (those of"
            " the defaults)",
            "*",
            (),
        )
    )

    def refuse_contradictions(self) -> None:
        """Refuses what means nothing without another word, or with it."""
        if len(self.files) not in (0, 2):
            raise usage_fault("name NEW and BASELINE, or none")
        can_ask = os.isatty(0) and os.isatty(1) and not self.is_quiet
        if not self.digest and not can_ask:
            raise usage_fault("give --sha256 DIGEST, or run this on a terminal to be asked")


def title_line(request: AcceptRequest, accepted: Accepted) -> str:
    line = f"{shown(request.new)} is the baseline "
    line += "now" if accepted.is_replaced else "already"
    if accepted.merged:
        line += ", except what stays open"
    return f"{line}: {shown(request.baseline)}"


def lines_of(request: AcceptRequest, accepted: Accepted) -> Iterator[str]:
    """The lines that say what was done."""
    yield title_line(request, accepted)
    written = accepted.new.written
    date = "at an unknown time"
    if written is not None:
        date = date_of(written)
    yield f"new: SHA-256 {accepted.new.sha256}, {request.came} {date}"
    if accepted.merged:
        kinds = words_of_kinds(accepted.merged.counts[kind] for kind in KINDS)
        yield (
            f"baseline: SHA-256 {accepted.sha256}; it contains the new entries, and of what stays"
            f" open the former ones: {kinds}"
        )
    former = accepted.former
    if former is None:
        yield "former: none, this is the first baseline"
        return
    if accepted.is_replaced:
        sha256 = former or "unknown, it cannot be read"
        yield f"former: SHA-256 {sha256}, kept as {shown(request.baseline)}.previous"


def run(request: AcceptRequest, is_quiet: bool) -> int:
    """Accepts, and says what was done. Returns the status."""
    accepted = accept(request)
    try:
        if not is_quiet:
            tell(*lines_of(request, accepted))
    except Fault:
        say(f"{shown(request.new)} is the baseline, but that could not be printed")
        return Status.DEVICE
    return Status.OK


def main(arguments: Sequence[str]) -> int:
    options = read(AcceptOptions, arguments, HELP)
    options.refuse_contradictions()
    defaults = Defaults()
    if not (options.files and options.digest):
        defaults = read_defaults(arguments)
    new, baseline = options.files or reversed(machines_databases(defaults))
    digest = options.digest or wanted_after_question(new, baseline, defaults)
    request = AcceptRequest(new, baseline, digest, options.keep_open, options.max_size)
    return run(request, options.is_quiet)
