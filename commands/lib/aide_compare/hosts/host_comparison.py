"""Compares the database that was fetched from a host with its baseline, in limited memory and time,
and keeps the changes."""
from __future__ import annotations

import os
import time
from collections.abc import Mapping, Sequence
from contextlib import closing
from typing import NamedTuple

from aide_compare.base.ending import DeviceFault, Status, fault_of
from aide_compare.base.escapes import encoded
from aide_compare.base.kinds import duration, matching
from aide_compare.base.options import (
    CONFIG,
    EXCLUDE,
    EXCLUDE_FROM,
    HOSTS_OPERAND,
    MAX_SIZE,
    NO_DEFAULTS,
    QUIET,
    StoreRequest,
    field,
    option,
)
from aide_compare.base.replacement import NewFile, replace
from aide_compare.base.words import age_in_words, words_of_kinds
from aide_compare.compare import work
from aide_compare.compare.comparison import NO_COPIES, Comparison, ComparisonInput
from aide_compare.compare.configuration import NONE
from aide_compare.compare.exclusions import Exclusions
from aide_compare.compare.state import State
from aide_compare.compare.unpack import Copy, copy_database
from aide_compare.hosts.kept_lines import write_kept
from aide_compare.hosts.store import BASELINE, ERRORS, LINES, MAX_BASELINE, NEW_FILE, HostDirectory
from aide_compare.hosts.store import check_name, write_cause
from aide_compare.show.notes import told_of

# Without --max-size a new database may always have so many bytes, and so many times those of the
# baseline.
MIN_SIZE = 64 << 20
GROWTH = 4
# So many bytes of the lines of all changes are judged, and so many of the lines of a host are kept;
# of the canary all, since each of its changes may be silent on the others.
MAX_JUDGED = 256 << 20
MAX_KEPT = 4 << 20
MAX_AHEAD = 600
SAME_FOR = 50 * 3600


class HostsRequest(StoreRequest):
    """What the options of `hosts compare` ask for."""

    is_quiet: bool = field(
        QUIET,
        help="only hosts with changes that are not silent, or not compared; if any, a summary",
    )
    jobs: int = option(
        "--jobs",
        "how many hosts at a time (8)",
        "N",
        kind=matching(r"[1-9][0-9]{0,2}", "a number from 1 to 999", int),
        default=8,
    )
    no_fetch: bool = option("--no-fetch", "compare what was fetched before")
    canary: str | None = option(
        "--canary",
        "compared first; changes that it went through too are silent on all other hosts",
        "HOST",
        kind=check_name,
    )
    configuration: str | None = field(CONFIG, help="a configuration of this machine (none)")
    exclude_from: Sequence[str] = field(EXCLUDE_FROM)
    exclude: Sequence[str] = field(EXCLUDE)
    no_defaults: bool = field(NO_DEFAULTS)
    max_size: int = field(
        MAX_SIZE,
        default=0,
        help="the most bytes of the unpacked database (4 times the baseline, at least 64M)",
    )
    same_for: int = option(
        "--same-for",
        "how long a host may send the same bytes (50h; 0: no limit)",
        "TIME",
        kind=duration,
        default=SAME_FOR,
    )
    hosts_file: str = field(HOSTS_OPERAND)


class HostsRun(NamedTuple):
    """What all hosts of a run are compared by."""

    request: HostsRequest
    exclusions: Exclusions | None
    max_kept: int  # Of the lines of a host.
    trusted: Mapping[str, Copy] = NO_COPIES  # The pair of the canary, if there is one.


def run_comparison(directory: HostDirectory, run: HostsRun, part: NewFile) -> Comparison:
    """The Comparison, with its lines in the part. What ended it is a Fault."""
    old = copy_database("old", directory.file(BASELINE), MAX_BASELINE)
    max_size = run.request.max_size or max(GROWTH * old.size, MIN_SIZE)
    new = copy_database("new", directory.file(NEW_FILE), max_size)
    comparison = work.compare(
        ComparisonInput(
            old=directory.file(BASELINE),
            new=directory.file(NEW_FILE),
            configuration=run.request.configuration or NONE,
            copies={"old": old, "new": new, **run.trusted},
            exclusions=run.exclusions,
            target=part.fd,
            max_report=min(MAX_JUDGED, directory.room(run.request.jobs) // 2),
        )
    )
    if comparison.fault:
        raise comparison.fault
    return comparison


def keep_findings(directory: HostDirectory, run: HostsRun, comparison: Comparison) -> None:
    """Keeps the changes that are not silent. The comparison gets its judgement."""
    with closing(NewFile(directory.fd)) as part:
        limit = min(run.max_kept, directory.room(run.request.jobs))
        comparison.judgement = write_kept(part.fd, comparison, limit)
        if comparison.judgement.standings:
            part.put(LINES)


def age_fault(directory: HostDirectory, run: HostsRun) -> str:
    """Why what was fetched is not the database of today; "" if it is."""
    cause = directory.fetch_cause()
    if cause:
        return f"it was not fetched the last time: {cause}"
    age = time.time() - os.stat(NEW_FILE, dir_fd=directory.fd).st_mtime
    if not run.request.same_for or -MAX_AHEAD <= age <= run.request.same_for:
        return ""
    if age < 0:
        return "its database was fetched in the future; is the clock of this host right?"
    limit = age_in_words(run.request.same_for)
    return f"has sent no new database for more than {limit}; does AIDE run there?"


def as_not_compared(directory: HostDirectory, state: State, why: str) -> State:
    """The same State with the status of a comparison that says nothing of today."""
    text = f"{directory.host}: {why}"
    if state.status and state.counts:
        text += f"; it differs: {words_of_kinds(state.counts)}"
    return state._replace(
        status=Status.DEVICE, error=text, added=None, removed=None, changed=None, standings=None
    )


def keep_comparison(directory: HostDirectory, run: HostsRun) -> State:
    """Compares, keeps lines and errors, and returns the State."""
    if not directory.has(NEW_FILE):
        cause = directory.fetch_cause() or "see aide-compare hosts compare --help"
        raise DeviceFault(f"nothing was fetched yet: {cause}")
    if not directory.has(BASELINE):
        raise DeviceFault("there is no baseline yet; see aide-compare hosts add --help")
    with closing(NewFile(directory.fd)) as part:
        comparison = run_comparison(directory, run, part)
        directory.remove(LINES)
        if comparison.differs:
            keep_findings(directory, run, comparison)
    state = comparison.state()
    errors = told_of(comparison)
    why = age_fault(directory, run)
    if why:
        state = as_not_compared(directory, state, why)
        errors += f"{state.error}\n"
    directory.write(ERRORS, encoded(errors))
    return state


def compare(directory: HostDirectory, run: HostsRun) -> State:
    """Compares, and keeps lines, errors and the state, which says so too if that fails. The program
    ends with this process."""
    try:
        state = keep_comparison(directory, run)
        replace(directory.state_path, state.text(), what="the state")
        return state
    except OSError as error:
        fault = directory.fault(f"cannot keep its lines: {write_cause(error)}")
    except MemoryError:
        fault = directory.fault("what it sent needs too much memory", Status.MEMORY)
    except Exception as error:
        cause = fault_of(error)
        # The name of the host says which directory it is, and a short text has no room for it.
        fault = directory.fault(cause.text.replace(f" {directory.path}/", " "), cause.status)
    directory.not_compared(fault.text, fault.status)
    raise fault
