"""Files that are opened without trust: read, or made without a name."""
from __future__ import annotations

import errno
import fcntl
import os
import stat
import time
from collections.abc import Iterable, Iterator
from contextlib import suppress
from io import BufferedRandom
from typing import IO

from aide_compare.base.directories import PLACE, closed_after, failure, others_can_write, walked
from aide_compare.base.ending import DeviceFault, Fault, OSErrorAsFault, Status, write_all
from aide_compare.base.escapes import shown

BLOCK = 1 << 18
# Of a file of the administrator.
MAX_TRUSTED_LINES = 10000
MAX_TRUSTED_BYTES = 1 << 22
TEMPORARY = ".aide-compare-"
SECONDS_FOR_LOCK = 60
PRIVATE = 0o600
# Where a caller's open files have names.
OPENED = ("/dev/fd/", "/proc/self/fd/")
NO_TMPFILE = (errno.EOPNOTSUPP, errno.EISDIR, errno.EINVAL)
CREATED = os.O_CREAT | os.O_EXCL | os.O_RDWR | os.O_NOFOLLOW | os.O_CLOEXEC
FILE_KINDS = {
    stat.S_IFREG: "file",
    stat.S_IFDIR: "directory",
    stat.S_IFIFO: "FIFO",
    stat.S_IFSOCK: "socket",
    stat.S_IFLNK: "link",
}


def given_descriptor(path: str) -> int | None:
    """The number of the descriptor that a path means, such as - or /dev/stdin; None for all other
    paths."""
    if path in ("-", "/dev/stdin"):
        return 0
    for directory in OPENED:
        number = path.removeprefix(directory)
        if number != path and number.isascii() and number.isdigit() and len(number) < 8:
            return int(number)
    return None


def is_missing(path: str) -> bool:
    """Whether there is nothing at a path, as far as this user can see."""
    try:
        os.lstat(path)
    except OSError as error:
        return isinstance(error, FileNotFoundError)
    return False


def is_name(shown_path: str) -> bool:
    """Whether a path that was shown is the name of a file: an escaped name is not the name, and a
    descriptor was that of another process."""
    return "\\" not in shown_path and given_descriptor(shown_path) is None


def file_kind(mode: int) -> str:
    return f"a {FILE_KINDS.get(stat.S_IFMT(mode), 'device')}"


def refuse_other_kinds(mode: int) -> None:
    """A failure if a file, by its `st_mode`, is no regular one: a device, a link, a FIFO."""
    if stat.S_ISREG(mode):
        return
    text = f"it is {file_kind(mode)}, not a regular file"
    if stat.S_ISLNK(mode):
        text += ", which is not followed: name the file itself"
    raise failure(errno.EINVAL, text)


def reopened(descriptor: int, flags: int) -> int:
    """The same file, opened once more by its descriptor, whatever its name is now."""
    try:
        return os.open(f"/proc/self/fd/{descriptor}", flags | os.O_CLOEXEC)
    except FileNotFoundError:
        raise DeviceFault("/proc is not mounted, so no file can be opened by its descriptor")


def _opened(path: str | bytes, what: str) -> tuple[int, bool]:
    """A descriptor of a regular file, to be read, and whether nobody else can put another file in
    its place, wherever the links of the path lead."""
    with OSErrorAsFault(f"cannot open {what}{shown(path)}"):
        directory, file = walked(path)
        with directory:
            if file is None:
                raise failure(errno.EISDIR, "it is a directory")
            with closed_after(file):
                refuse_other_kinds(os.fstat(file).st_mode)
                descriptor = reopened(file, os.O_RDONLY | os.O_NONBLOCK | os.O_NOCTTY)
                return descriptor, directory.is_safe()


def open_regular(path: str | bytes, what: str = "") -> int:
    """A descriptor of a regular file, to be read; all else is a Fault at once. `what` is such as
    "the new database "."""
    return _opened(path, what)[0]


def read_whole(descriptor: int, limit: int, what: str) -> bytes:
    """The bytes of an open file, at most so many."""
    data = bytearray()
    with OSErrorAsFault(f"cannot read {what}"):
        while block := os.read(descriptor, min(limit + 1 - len(data), BLOCK)):
            data += block
            if len(data) > limit:
                raise DeviceFault(f"{what} has more than {limit} bytes")
    return bytes(data)


def read_file(path: str | bytes, limit: int, what: str = "") -> bytes:
    """The bytes of a regular file, at most so many. `what` says what it is, such as "the state file
    "."""
    with closed_after(open_regular(path, what)) as descriptor:
        return read_whole(descriptor, limit, what + shown(path))


def trusted_text(path: str, what: str) -> bytes:
    """The bytes of a file of the administrator, such as "the keyring". Only root and the caller may
    be able to change it."""
    descriptor, is_safe = _opened(path, f"{what} ")
    with closed_after(descriptor):
        if not is_safe or others_can_write(os.fstat(descriptor)):
            raise DeviceFault(f"other users can write {what} {shown(path)}")
        return read_whole(descriptor, MAX_TRUSTED_BYTES, f"{what} {shown(path)}")


def lines_of(path: str, text: bytes, what: str) -> list[tuple[bytes, str]]:
    """The lines of such a text that say something, each with the place where it stands. Blanks at
    the ends do not count."""
    name = shown(path, 200)
    lines = []
    for number, raw in enumerate(text.split(b"\n"), 1):
        line = raw.strip(b" \t\r")
        if line and not line.startswith(b"#"):
            lines.append((line, f"{name}, line {number}"))
    if len(lines) > MAX_TRUSTED_LINES:
        raise Fault(Status.USAGE, f"{what} {shown(path)} has more than {MAX_TRUSTED_LINES} lines")
    return lines


def blocks_of(source: int) -> Iterator[bytes]:
    """All bytes of a file by its descriptor, from its beginning."""
    offset = 0
    while block := os.pread(source, BLOCK, offset):
        yield block
        offset += len(block)


def digests_of(file: IO[bytes], labels: Iterable[str], limit: int) -> dict[str, str]:
    """The digests, in base 16, of the next bytes of a file, at most so many, by labels such as
    SHA256."""
    import hashlib

    hashes = {label: hashlib.new(label.lower().replace("-", "_")) for label in labels}
    while block := file.read(min(BLOCK, limit)):
        limit -= len(block)
        for each in hashes.values():
            each.update(block)
    return {label: each.hexdigest() for label, each in hashes.items()}


def copy_file(source: int, target: int) -> None:
    """Writes all bytes of a file to another one, both by their descriptors."""
    for block in blocks_of(source):
        write_all(target, block)


def random_name() -> str:
    return TEMPORARY + os.urandom(12).hex()


def private_directory() -> str:
    """The path of the directory in which private files without a name are made."""
    return os.environ.get("TMPDIR") or "/var/tmp"


def private_place() -> str:
    """The same for people."""
    return f"{shown(private_directory())} (name another directory by TMPDIR)"


def new_file(directory: int, name: str, more: int = 0) -> tuple[int, str]:
    """The descriptor and the name of a new file in an open directory, of the caller only. It has
    this name only where the file system does not know files without one, and otherwise ""."""
    flags = os.O_TMPFILE | os.O_RDWR | os.O_CLOEXEC | more
    try:
        return os.open(".", flags, PRIVATE, dir_fd=directory), ""
    except OSError as error:
        if error.errno not in NO_TMPFILE:
            raise
    return os.open(name, CREATED, PRIVATE, dir_fd=directory), name


def unlink(name: str, directory: int) -> None:
    """Removes a name, if it is there, in an open directory."""
    with suppress(FileNotFoundError):
        os.unlink(name, dir_fd=directory)


def nameless() -> int:
    """A private file that has no name, open for reading and writing. Once it is made, nothing is
    left of it however the command ends."""
    with OSErrorAsFault(f"cannot make a private file in {private_place()}"):
        with closed_after(os.open(private_directory(), PLACE)) as directory:
            descriptor, name = new_file(directory, random_name(), os.O_EXCL)
            if name:
                os.unlink(name, dir_fd=directory)
            return descriptor


def private_file() -> BufferedRandom:
    """A private file without a name, for what is written first and read afterwards."""
    return open(nameless(), "w+b")


def in_memory(data: bytes) -> int:
    """A private file of the kernel's with a few bytes, which have no place on a disk."""
    descriptor = os.memfd_create("aide-compare")
    os.fchmod(descriptor, PRIVATE)
    write_all(descriptor, data)
    return descriptor


def is_locked(descriptor: int, deadline: float, how: int = fcntl.LOCK_EX) -> bool:
    """Whether this process has the lock of a file by then. It does not wait for ever: another user
    could keep the lock."""
    while True:
        try:
            fcntl.flock(descriptor, how | fcntl.LOCK_NB)
            return True
        except BlockingIOError:
            if time.monotonic() >= deadline:
                return False
            time.sleep(0.02)


class Lock:
    """A lock in an open directory: a file that only its owner can open, since who can open a file
    can lock it. It goes with the lock. Another run is waited for, but not for ever."""

    def __init__(self, directory: int, file: str) -> None:
        self.directory = directory
        self.name = f".{file}.lock"
        flags = os.O_RDWR | os.O_CREAT | os.O_NOFOLLOW | os.O_CLOEXEC
        deadline = time.monotonic() + SECONDS_FOR_LOCK
        while True:
            self.fd = os.open(self.name, flags, PRIVATE, dir_fd=directory)
            if not is_locked(self.fd, deadline):
                os.close(self.fd)
                text = f"another process has locked it for {SECONDS_FOR_LOCK} seconds"
                raise failure(errno.EBUSY, text)
            if os.fstat(self.fd).st_nlink:  # Another run may have removed it meanwhile.
                return
            os.close(self.fd)

    def close(self) -> None:
        unlink(self.name, self.directory)
        os.close(self.fd)
