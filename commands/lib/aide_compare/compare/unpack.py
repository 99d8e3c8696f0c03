"""Private copies of databases: without a name, unpacked, never larger than allowed, with their
SHA-256."""
from __future__ import annotations

import fcntl
import os
import stat
import zlib
from collections.abc import Iterable, Iterator
from itertools import chain

from aide_compare.base.ending import DeviceFault, Fault, OSErrorAsFault, write_all
from aide_compare.base.escapes import shown
from aide_compare.base.files import (
    BLOCK,
    blocks_of,
    file_kind,
    given_descriptor,
    nameless,
    open_regular,
    private_place,
)
from aide_compare.base.directories import closed_after, failure
from aide_compare.base.words import words_of_side

GZIP = b"\x1f\x8b"
WITH_GZIP_HEADER = 31  # What zlib calls a window of 32 KiB behind a header of gzip.


class Opened:
    """A database that is open."""

    def __init__(self, side: str, path: str, descriptor: int) -> None:
        status = os.fstat(descriptor)
        self.side = side
        self.path = path
        self.fd = descriptor
        self.words = f"the {words_of_side(side)} database {shown(path)}"
        # When its file was last modified; None for a pipe.
        self.written: float | None = None
        if stat.S_ISREG(status.st_mode):
            self.written = status.st_mtime
        self.is_packed = False  # Whether its bytes were seen to be packed.

    def too_large(self, limit: int) -> Fault:
        return DeviceFault(f"{self.words} has more than {limit} bytes unpacked")


class Copy:
    """A private copy of a database, unpacked, by its descriptor. `name` is that of the database,
    and `written` the second when it was last modified, None if that is not known. `digest` is its
    SHA-256 in base 16, "" before it is known."""

    def __init__(self, descriptor: int, name: str, written: float | None) -> None:
        self.fd = descriptor
        self.name = name
        self.written = None if written is None else int(written)
        self.size = os.fstat(descriptor).st_size
        self.digest = ""

    @property
    def sha256(self) -> str:
        """The digest. All bytes are read for it, unless whoever has read them has said it."""
        if not self.digest:
            from hashlib import sha256

            digest = sha256()
            for block in blocks_of(self.fd):
                digest.update(block)
            self.digest = digest.hexdigest()
        return self.digest


def open_database(side: str, path: str) -> Opened:
    """Opens a regular file by its name, or what the caller has opened as /dev/stdin or /dev/fd/N,
    also a pipe."""
    given = given_descriptor(path)
    if given is None:
        return Opened(side, path, open_regular(path, f"the {words_of_side(side)} database "))
    with OSErrorAsFault(f"cannot open the {words_of_side(side)} database {shown(path)}"):
        if fcntl.fcntl(given, fcntl.F_GETFD) & fcntl.FD_CLOEXEC:
            raise failure(0, "the caller has not opened it")
        mode = os.fstat(given).st_mode
        if not (stat.S_ISREG(mode) or stat.S_ISFIFO(mode) or stat.S_ISSOCK(mode)):
            raise failure(0, f"it is {file_kind(mode)}")
        return Opened(side, path, fcntl.fcntl(given, fcntl.F_DUPFD_CLOEXEC, 0))


def _raw_blocks(opened: Opened, limit: int) -> Iterator[bytes]:
    """The bytes of an open database as they are, at most some twice as many as are allowed
    unpacked."""
    count = 0
    while True:
        with OSErrorAsFault(f"cannot read {opened.words}"):
            block = os.read(opened.fd, BLOCK)
        if not block:
            return
        count += len(block)
        if count > 2 * limit + (1 << 20):
            raise opened.too_large(limit)
        yield block


def _unzipped(packed: Iterable[bytes]) -> Iterator[bytes]:
    """Unpacks the one member of gzip that AIDE writes. Zeros may follow it, nothing else."""
    member = zlib.decompressobj(WITH_GZIP_HEADER)
    for block in packed:
        while block and not member.eof:
            yield member.decompress(block, BLOCK)
            block = member.unconsumed_tail
        if member.eof and (member.unused_data.strip(b"\0") or block.strip(b"\0")):
            raise zlib.error(
                "more follows its first member; for all: zcat FILE | aide-compare OLD -"
            )
    if not member.eof:
        raise zlib.error("it ends too early")


def _unpacked(opened: Opened, limit: int) -> Iterator[bytes]:
    """The unpacked bytes of an open database."""
    raw = _raw_blocks(opened, limit)
    head = b""
    while len(head) < len(GZIP) and (block := next(raw, b"")):  # A pipe may give one at a time.
        head += block
    blocks: Iterator[bytes] = chain([head], raw)
    if head.startswith(GZIP):
        opened.is_packed = True
        blocks = _unzipped(blocks)
    size = 0
    try:
        for block in blocks:
            size += len(block)
            if size > limit:
                raise opened.too_large(limit)
            yield block
    except zlib.error as error:
        why = f"is compressed by gzip and is cut short or damaged: {shown(str(error), 100)}"
        raise DeviceFault(f"{opened.words} {why}")


def copy_opened(opened: Opened, limit: int) -> Copy:
    """A private copy of an open database, which is closed."""
    with closed_after(opened.fd):
        target = nameless()
        try:
            for block in _unpacked(opened, limit):
                with OSErrorAsFault(f"cannot copy {opened.words} to {private_place()}"):
                    write_all(target, block)
        except BaseException:
            os.close(target)
            raise
    return Copy(target, opened.path, opened.written)


def copy_database(side: str, path: str, limit: int) -> Copy:
    """A private copy of the database at a path, which messages name by `side`."""
    return copy_opened(open_database(side, path), limit)
