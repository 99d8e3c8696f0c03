"""What the store knows of a host: its state, and the changes in the lines that were kept of it."""
from __future__ import annotations

import fcntl
import os
from collections.abc import Callable
from contextlib import ExitStack, closing

from aide_compare.base.ending import DeviceFault, Fault, Status, reason
from aide_compare.base.escapes import shown
from aide_compare.base.files import BLOCK, is_missing, open_regular
from aide_compare.base.words import SIDES, age_in_words, words_of_kinds
from aide_compare.compare.state import State, read_state
from aide_compare.hosts.report_values import CUT, UNREADABLE, WHOLE, Host
from aide_compare.hosts.store import LINES, HostDirectory, check_name
from aide_compare.lines.change import ODD, ChangeLine, Counts, Fields
from aide_compare.lines.reader import Reader, Refused


def words_of(state: State) -> str:
    """What a comparison has counted."""
    if not state.status:
        return "no differences"
    text = words_of_kinds((state.added, state.removed, state.changed))
    if state.standings:
        text += f": {state.standings.words()}"
        if state.standings.left_out:
            text += f"; {state.standings.left_out_words()}"
    return text


def host_of(name: str, status: int, error: str, state: State | None = None) -> Host:
    """A host with its status, its state if there is one, and why it was not compared."""
    return Host(shown(name, 200), status, error.removeprefix(f"{name}: "), state)


def host_in(directory: HostDirectory, max_age: int) -> Host:
    """The host by its state. One that is too old says nothing of today."""
    if is_missing(directory.state_path):
        raise directory.fault("its state is missing")
    state = read_state(directory.state_path)
    if state.age is None:
        raise directory.fault("was compared in the future; is the clock of this host right?")
    if state.is_older(max_age):
        text = f"was not compared for {age_in_words(state.age)}"
        return host_of(directory.host, Status.DEVICE, text, state)
    return host_of(directory.host, state.told_status, state.error, state)


def is_of_run(end: Fields, state: State, counts: Counts) -> bool:
    """Whether lines with this end are of the run of a state, and not of another night's. Of silent
    changes none is kept."""
    if end["same_as_old"] or end["left_out"]:
        return False
    digests = [end[side]["sha256"] for side in SIDES]
    is_same_pair = digests == [state.old_sha256, state.new_sha256]
    return is_same_pair and end.get("standings") == counts._asdict()


def read_changes(
    directory: HostDirectory, host: Host, take: Callable[[ChangeLine], object]
) -> Host:
    """Gives each change in the lines that were kept of a host to `take`. Returns the host with what
    the lines are, and how many changes they have."""
    report = UNREADABLE
    listed = 0
    try:
        descriptor = open_regular(directory.file(LINES))
    except Fault:
        return host._replace(report=report)
    try:
        with open(descriptor, "rb", BLOCK) as file:
            lines = Reader(file)
            for change in lines.changes():
                take(change)
                listed += 1
        if host.state and host.counts and is_of_run(lines.end, host.state, host.counts):
            report = WHOLE
            if listed < host.counts.to_read:
                report = CUT
    except (Refused, RecursionError, OSError, *ODD):
        pass
    return host._replace(report=report, listed=listed)


def read_host(
    name: str,
    store: str,
    seconds: int,
    max_age: int,
    take: Callable[[ChangeLine], None] | None = None,
) -> Host:
    """Reads what a store keeps of a host, and gives each change to `take`, if there is one. No run
    is at work on the host then."""
    with ExitStack() as opened:
        try:
            directory = opened.enter_context(closing(directory_of(name, store, seconds)))
            host = host_in(directory, max_age)
        except Fault as fault:
            return host_of(name, fault.status, fault.text)
        except OSError as error:
            return host_of(name, Status.DEVICE, f"cannot be read: {reason(error)}")
        if take and host.differs:
            host = read_changes(directory, host, take)
    return host


def directory_of(name: str, store: str, seconds: int) -> HostDirectory:
    """The directory of a host that has one. Nothing is made for any other."""
    if not os.path.isdir(store):
        raise DeviceFault(f"there is no directory {shown(store)}")
    if is_missing(f"{store}/hosts/{check_name(name)}"):
        raise DeviceFault("was never compared")
    return HostDirectory(store, name, seconds, fcntl.LOCK_SH)
