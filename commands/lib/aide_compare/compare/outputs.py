"""What a command writes beside its standard output."""
from __future__ import annotations

import fcntl
import os
import zlib
from collections.abc import Callable, Iterable
from contextlib import suppress
from functools import partial

from aide_compare.base.directories import closed_after
from aide_compare.base.ending import DeviceFault, Fault, Status, write_all, write_blocks
from aide_compare.base.escapes import shown
from aide_compare.base.files import PRIVATE, given_descriptor, open_regular
from aide_compare.base.replacement import Replacement
from aide_compare.compare.unpack import GZIP, WITH_GZIP_HEADER

# A place: it takes bytes, and it is known before the work that this is possible.
Output = Callable[[Iterable[bytes]], object]

STDOUT = 1
BEGIN = b"@@begin_db"
MAX_HEAD = 4096
STREAMS = {"-": STDOUT, "/dev/stdout": STDOUT, "/dev/stderr": 2}


def _is_open_for_writing(descriptor: int) -> bool:
    """Whether the caller has opened a descriptor for writing."""
    try:
        flags = fcntl.fcntl(descriptor, fcntl.F_GETFL) & os.O_ACCMODE
        is_ours = fcntl.fcntl(descriptor, fcntl.F_GETFD) & fcntl.FD_CLOEXEC
    except OSError:
        return False
    return flags != os.O_RDONLY and not is_ours


def descriptor_of(path: str) -> int | None:
    """The descriptor that a path means, as -, /dev/stdout, /dev/stderr and /dev/fd/N do; None for
    the path of a file."""
    return STREAMS.get(path, given_descriptor(path))


def notes(blocks: Iterable[bytes]) -> None:
    """Standard error as a place. If that cannot be written, nothing else changes."""
    with suppress(OSError):
        for block in blocks:
            write_all(2, block)


def is_database(path: str) -> bool:
    """Whether a file begins as a database of AIDE, plain or packed by gzip."""
    with suppress(Fault, OSError, zlib.error), closed_after(open_regular(path)) as descriptor:
        head = os.pread(descriptor, MAX_HEAD, 0)
        if head.startswith(GZIP):
            head = zlib.decompressobj(WITH_GZIP_HEADER).decompress(head, len(BEGIN))
        return head.startswith(BEGIN)
    return False


def file_output(path: str, what: str, mode: int) -> Output:
    """A file, which is replaced in one step. One that is a database is refused: nobody means it."""
    if is_database(path):
        raise Fault(Status.USAGE, f"{what} would replace a database: {shown(path, 200)}")
    return Replacement(path, mode, what, makes_directory=False).begin().commit


def open_output(path: str, what: str) -> Output:
    """The place that a path means; a Fault if nothing can be written there."""
    descriptor = descriptor_of(path)
    if descriptor is None:
        return file_output(path, what, PRIVATE)
    words = f"cannot write {what} {shown(path)}"
    if not _is_open_for_writing(descriptor):
        raise DeviceFault(f"{words}: the caller has not opened it for writing")
    return partial(write_blocks, descriptor, words=words)
