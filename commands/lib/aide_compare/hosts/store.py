"""What the collecting host keeps of each watched host: a directory with a lock, new files in it,
and a state."""
from __future__ import annotations

import errno
import fcntl
import os
import re
import time
from contextlib import ExitStack, closing, suppress

from aide_compare.base.ending import (
    DeviceFault,
    Fault,
    OSErrorAsFault,
    Status,
    reason,
    say,
    write_all,
)
from aide_compare.base.directories import closed_after, open_directory
from aide_compare.base.escapes import encoded
from aide_compare.base.files import copy_file, is_locked, open_regular, read_file, unlink
from aide_compare.base.replacement import NewFile, replace
from aide_compare.compare.state import State

# What a process may take of memory for one host, beside what it has when its work begins.
MAX_MEMORY = 64 << 20
MAX_BASELINE = 4 << 30
MAX_CAUSE = 5000
# The files of a host. The last one has the cause why the host could not be fetched the last time.
NEW_FILE = "aide.db.new"
BASELINE = "aide.db"
PREVIOUS = "aide.db.previous"
LINES = "lines"
ERRORS = "errors"
CAUSE = "not-fetched"
LOCK = "lock"

NAME = re.compile(r"[A-Za-z0-9][A-Za-z0-9._:@-]{0,199}")
NAME_FORM = (
    "the name of a host begins with a letter or a digit, has only these and . _ : @ -, "
    "no two dots together, and at most 200 characters"
)
DISK_FULL = (errno.ENOSPC, errno.EDQUOT, errno.EFBIG)


def check_name(host: str) -> str:
    """The name of a host, which can be no option, no path, no shell text and no second line."""
    if not NAME.fullmatch(host) or ".." in host:
        raise Fault(Status.USAGE, NAME_FORM)
    return host


def write_cause(error: OSError) -> str:
    """Why something could not be written, in words."""
    if error.errno in DISK_FULL:
        return "is the disk full?"
    return reason(error)


class HostDirectory:
    """The directory of one host and its lock. Another run over this host waits for the lock, but
    not forever.

    `deadline` is the end of the time for this host, on the monotonic clock.
    """

    def __init__(self, store: str, host: str, seconds: float, lock: int = fcntl.LOCK_EX) -> None:
        self.host = check_name(host)
        self.seconds = seconds
        self.deadline = time.monotonic() + seconds
        self.path = f"{store}/hosts/{host}"
        states = f"{store}/states"
        self.state_path = f"{states}/{host}"
        for path in (store, states):
            open_directory(path, make=True).close()
            make_private(path)
        for path in (f"{store}/hosts", self.path):
            make_private(path)
        with ExitStack() as opened:
            self.fd: int = opened.enter_context(open_directory(self.path)).fd
            flags = os.O_RDWR | os.O_CREAT | os.O_NOFOLLOW | os.O_CLOEXEC
            descriptor = os.open(LOCK, flags, 0o600, dir_fd=self.fd)
            opened.enter_context(closed_after(descriptor))
            if not is_locked(descriptor, self.deadline, lock):
                raise self.fault("another run is at work on it")
            self.close = opened.pop_all().close

    def fault(self, text: str, status: int = Status.DEVICE) -> Fault:
        return Fault(status, f"{self.host}: {text}")

    def file(self, name: str) -> str:
        return f"{self.path}/{name}"

    def has(self, name: str) -> bool:
        return os.path.lexists(self.file(name))

    def remove(self, name: str) -> None:
        unlink(name, self.fd)

    def is_new(self) -> bool:
        """Whether nothing is kept of the host yet."""
        return os.listdir(self.path) == [LOCK]

    def remove_all(self) -> None:
        """Removes all that is kept of the host but its state."""
        with OSErrorAsFault(f"cannot remove what is kept of {self.host}"):
            for name in os.listdir(self.path):
                self.remove(name)
            os.rmdir(self.path)

    def write(self, name: str, data: bytes) -> None:
        """Puts these bytes in the place of a file, in one step."""
        with closing(NewFile(self.fd)) as part:
            write_all(part.fd, data)
            part.put(name)

    def copy(self, source: str, name: str) -> None:
        """Makes a copy of a file of this host. A file of that name is a FileExistsError."""
        with closing(NewFile(self.fd)) as part, closed_after(
            open_regular(self.file(source))
        ) as descriptor:
            copy_file(descriptor, part.fd)
            part.put(name, over=False)

    def room(self, jobs: int) -> int:
        """The most bytes that this host may take now, so that something is left for each host at
        work beside it."""
        disk = os.fstatvfs(self.fd)
        return disk.f_bavail * disk.f_frsize // (2 * jobs + 2)

    def not_fetched(self, cause: str) -> None:
        """Keeps the cause why the host could not be fetched, for a later comparison without a
        fetch."""
        with suppress(OSError):
            self.write(CAUSE, encoded(cause)[:MAX_CAUSE])

    def fetch_cause(self) -> str:
        """The cause why the host could not be fetched the last time; "" if it could."""
        if not self.has(CAUSE):
            return ""
        with suppress(Fault):
            text = read_file(self.file(CAUSE), MAX_CAUSE).decode("utf-8", "replace")
            return text.removeprefix(f"{self.host}: ")
        return "its cause cannot be read"

    def not_compared(self, text: str, status: int = Status.DEVICE) -> None:
        """The state says at once that nothing was compared, so that no check shows an older
        result. One that cannot be written, as on a full disk, is removed."""
        state = State(status, int(time.time()), error=text)
        try:
            replace(self.state_path, state.text(), what="the state")
        except (Fault, OSError) as fault:
            say(f"{self.host}: its state cannot be written: {fault}")
            with suppress(OSError):
                os.unlink(self.state_path)


def make_private(path: str) -> None:
    """Makes a directory, if it is not there. One that another user can write is a Fault."""
    with OSErrorAsFault(f"cannot make the directory {path}"), suppress(FileExistsError):
        os.mkdir(path, 0o700)
    with open_directory(path) as directory:
        if directory.others:
            text = f"another user can write in {path} or above it; run this command as that user"
            raise DeviceFault(text)
