"""Fetches the database of a host by ssh, with limits on bytes, error lines and time."""
from __future__ import annotations

import filecmp
import os
import re
from collections.abc import Callable
from contextlib import closing, suppress

from aide_compare.base.ending import Fault, OSErrorAsFault, fault_of, write_all
from aide_compare.base.escapes import shown
from aide_compare.base.replacement import NewFile
from aide_compare.base.processes import NOT_STARTED, OverTime, bounded, run, run_here
from aide_compare.hosts.store import CAUSE, NEW_FILE, HostDirectory, write_cause

DATABASE = "/var/lib/aide/aide.db.new"
# A forced command in authorized_keys of the host stands above this one, and may name another file.
COMMAND = f"cat {DATABASE}"
MAX_SENT = 1 << 30
MAX_ERRORS = 65536
SSH = (
    "ssh -n -a -x -o BatchMode=yes -o ConnectTimeout=30 -o ServerAliveInterval=30 "
    "-o LogLevel=ERROR -o ControlPath=none -o ClearAllForwardings=yes"
).split()
UNKNOWN_KEY = "Host key verification failed"
# What ssh writes before that about a host whose key is another one than before.
CHANGED_KEY = b"REMOTE HOST IDENTIFICATION HAS CHANGED"
HINTS = (
    (UNKNOWN_KEY, "is its key in known_hosts?"),
    ("Permission denied", "is the key of this user in its authorized_keys?"),
)


def ask_for_key(directory: HostDirectory) -> None:
    """Lets ssh ask on the terminal, as it does for people, if it does not know the key of a host.
    No key and no password is sent, and a host that lets everybody in gets no session."""
    words = "ssh -n -N -a -x -o ClearAllForwardings=yes -o ControlPath=none".split()
    words += ["-o", "StrictHostKeyChecking=ask", "-o", "PreferredAuthentications=none"]
    with suppress(FileNotFoundError, OverTime):  # The transfer says so.
        run_here([*words, directory.host], int(directory.seconds), os.environ, is_silent=True)


def transfer(directory: HostDirectory, part: NewFile, limit: int) -> None:
    """Runs ssh, which has to send something, and no more than `limit` bytes, into the part."""
    errors = bytearray()

    def take(block: bytes) -> None:
        if os.fstat(part.fd).st_size + len(block) > limit:
            raise directory.fault(f"sent more than {limit} bytes (1 GiB, or a share of free room)")
        try:
            write_all(part.fd, block)
        except OSError as error:
            raise directory.fault(f"what it sent was not written: {write_cause(error)}")

    take_error = bounded(errors, MAX_ERRORS, f"{directory.host}: sent errors of")
    words = [*SSH, directory.host, COMMAND]
    try:
        with OSErrorAsFault(f"{directory.host}: cannot run ssh"):
            status = run(words, {1: take, 2: take_error}, deadline=directory.deadline)
    except OverTime:
        raise directory.fault(f"had not sent all of it after {directory.seconds:g} seconds")
    if status == NOT_STARTED and not errors:
        raise directory.fault("there is no program ssh")
    if status != 0:
        raise directory.fault(cause_of(directory.host, bytes(errors), status))
    if not os.fstat(part.fd).st_size:
        raise directory.fault("sent nothing; is AIDE still at work there?")


def cause_of(host: str, errors: bytes, status: int) -> str:
    """Why ssh has failed: the last line that it or the host has written, and what may help."""
    lines = [line for line in re.split(rb"[\r\n]+", errors) if line.strip()]
    text = "ssh gave no reason"
    if lines:
        text = '"{}"'.format(shown(lines[-1], 200).replace('"', "'"))
    hints = "".join(f"; {hint}" for words, hint in HINTS if words in text)
    if UNKNOWN_KEY in text and CHANGED_KEY in errors:
        hints = "; its key differs from the one in known_hosts: if that is right, ssh-keygen -R "
        hints += host
    return f"{text} (ssh: status {status}){hints}"


def fetch(directory: HostDirectory, jobs: int, check: Callable[[int], None] | None = None) -> None:
    """Fetches the database. It gets its name after `check`, which may refuse it.

    The same bytes again leave the file's time as it is: it says since when the host has sent them.
    """
    with OSErrorAsFault(f"{directory.host}: cannot keep what it sent"):
        with closing(NewFile(directory.fd)) as part:
            transfer(directory, part, min(MAX_SENT, directory.room(jobs)))
            with OSErrorAsFault(f"{directory.host}: cannot read what it sent"):
                if check:
                    check(part.fd)
                is_known = is_same(part, directory)
            if not is_known:
                part.put(NEW_FILE)
            directory.remove(CAUSE)


def fetch_watched(directory: HostDirectory, jobs: int) -> None:
    """The same of a watched host. If anything fails, its state says so, and the cause is kept."""
    try:
        fetch(directory, jobs)
    except (Fault, MemoryError) as error:
        fault = fault_of(error)
        directory.not_fetched(fault.text)
        directory.not_compared(fault.text, fault.status)
        raise


def is_same(part: NewFile, directory: HostDirectory) -> bool:
    """Whether what came has the bytes of what was fetched before."""
    if not directory.has(NEW_FILE):
        return False
    return filecmp.cmp(f"/proc/self/fd/{part.fd}", directory.file(NEW_FILE), shallow=False)
