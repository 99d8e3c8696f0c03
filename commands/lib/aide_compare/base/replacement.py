"""Files that are put in the place of others in one step, also where another user can write."""
from __future__ import annotations

import errno
import os
import time
import zlib
from collections.abc import Callable, Iterable
from contextlib import closing, suppress
from functools import cache

from aide_compare.base.directories import LISTING, Directory, closed_after, failure
from aide_compare.base.directories import open_directory
from aide_compare.base.ending import DeviceFault, Fault, Status, why_of, write_all
from aide_compare.base.escapes import shown
from aide_compare.base.files import (
    PRIVATE,
    TEMPORARY,
    blocks_of,
    new_file,
    random_name,
    refuse_other_kinds,
    unlink,
)

STALE_SECONDS = 60  # A new file keeps such a name between two calls of the system only.
RENAME_EXCHANGE = 2
NO_EXCHANGE = (errno.EINVAL, errno.ENOSYS, errno.EOPNOTSUPP)
ANYBODY_READS = 0o644


class NewFile:
    """A new file in an open directory, `fd`, of the caller only. It has no name until it is put in
    place, or a random one where the file system needs one, so nothing is left of one that is not:
    whoever makes it closes it."""

    def __init__(self, directory: int) -> None:
        self.directory = directory
        self.fd, self.name = new_file(directory, random_name())

    def put(self, name: str, over: bool = True) -> None:
        """Gives it this name, when its bytes are on the disk, and the name too before this returns.
        A former file is replaced in one step, by another name for a moment; or, without `over`,
        that is a FileExistsError."""
        os.fsync(self.fd)
        if over:
            self.name = self.name or self._linked_for_a_moment(name)
            os.rename(self.name, name, src_dir_fd=self.directory, dst_dir_fd=self.directory)
            self.name = ""
        else:
            self._linked(name)
        with closed_after(os.open(".", LISTING, dir_fd=self.directory)) as directory:
            os.fsync(directory)

    def _linked_for_a_moment(self, name: str) -> str:
        """Links it beside a name. Each run uses the same name for that, so that a run that is
        killed leaves one file at most, which a later run removes; or a random one while another run
        has it."""
        other = f"{TEMPORARY}{zlib.crc32(os.fsencode(name)):08x}"
        with suppress(OSError):
            status = os.stat(other, dir_fd=self.directory, follow_symlinks=False)
            if abs(time.time() - status.st_ctime) > STALE_SECONDS:
                unlink(other, self.directory)
        try:
            return self._linked(other)
        except FileExistsError:
            return self._linked(random_name())

    def _linked(self, name: str) -> str:
        source = self.name or f"/proc/self/fd/{self.fd}"
        os.link(source, name, src_dir_fd=self.directory, dst_dir_fd=self.directory)
        return name

    def close(self) -> None:
        os.close(self.fd)
        if self.name:
            unlink(self.name, self.directory)


class Replacement:
    """A file that is replaced in one step: others see the former one or the whole new one. Where
    another user could replace it too, nothing is written: a command becomes that user before."""

    def __init__(
        self,
        path: str,
        mode: int = ANYBODY_READS,
        what: str = "the file",
        makes_directory: bool = True,
    ) -> None:
        self.path = path
        self.mode = mode
        self.what = what
        self.name = os.path.basename(path)
        self._refuse_directory()
        try:
            self.directory = open_directory(os.path.dirname(path) or ".", make=makes_directory)
        except (Fault, OSError) as error:
            raise self._fault(error)

    def begin(self) -> Replacement:
        """Finds out before the work whether the file can be made."""
        self._do(lambda directory: self._new_file(directory).close())
        return self

    def commit(self, blocks: Iterable[bytes]) -> None:
        """Puts bytes in the place of the file, on the disk before this returns."""
        self._do(lambda directory: self._put(directory, blocks))

    def close(self) -> None:
        self.directory.close()

    def _refuse_directory(self) -> None:
        if not self.name or os.path.isdir(self.path):
            raise Fault(Status.USAGE, f"{self.what} is a directory: {shown(self.path)}")

    def _fault(self, error: BaseException) -> Fault:
        return DeviceFault(f"cannot write {self.what} {shown(self.path)}: {why_of(error)}")

    def _do(self, work: Callable[[Directory], None]) -> None:
        """Does the work where nobody else can interfere."""
        self._refuse_directory()
        try:
            if not self.directory.is_safe():
                raise DeviceFault("other users can write in its directory or above it")
            work(self.directory)
        except (Fault, OSError) as error:
            raise self._fault(error)

    def _new_file(self, directory: Directory) -> NewFile:
        """The new file. A regular file is replaced, or none at all: never a device, a link or a
        FIFO."""
        with suppress(FileNotFoundError):
            status = os.stat(self.name, dir_fd=directory.fd, follow_symlinks=False)
            refuse_other_kinds(status.st_mode)
        return NewFile(directory.fd)

    def _put(self, directory: Directory, blocks: Iterable[bytes]) -> None:
        with closing(self._new_file(directory)) as part:
            for block in blocks:
                write_all(part.fd, block)
            os.fchmod(part.fd, self.mode)
            part.put(self.name)


def replace(
    path: str,
    data: bytes,
    mode: int = ANYBODY_READS,
    what: str = "the file",
    makes_directory: bool = True,
) -> None:
    """Puts these bytes in the place of a file, as Replacement does it."""
    with closing(Replacement(path, mode, what, makes_directory)) as file:
        file.commit([data])


def remove(path: str) -> None:
    """Removes a file, but no link, where nobody else could replace it."""
    with open_directory(os.path.dirname(path) or ".") as directory:
        if directory.is_safe() and not os.path.islink(path):
            unlink(os.path.basename(path), directory.fd)


def replace_by_copy(path: str, source: int) -> None:
    """The same by the bytes of an open file, a database. No directory is made for it."""
    with closing(Replacement(path, PRIVATE, "the database", makes_directory=False)) as file:
        file.commit(blocks_of(source))


@cache
def renameat2() -> Callable[..., int] | None:
    """The call of the C library, None if there is none. A command loads it before it becomes a user
    who may not read the module."""
    try:
        import ctypes

        call: Callable[..., int] = ctypes.CDLL(None, use_errno=True).renameat2
    except (ImportError, AttributeError, OSError):
        return None
    return call


def exchange(directory: int, one: str, other: str) -> bool:
    """Two names of a directory change places in one step, by renameat2. False, with nothing
    changed, if that is not possible."""
    call = renameat2()
    if call is None:
        return False
    import ctypes

    if call(directory, os.fsencode(one), directory, os.fsencode(other), RENAME_EXCHANGE) == 0:
        return True
    if ctypes.get_errno() in NO_EXCHANGE:
        return False
    raise failure(ctypes.get_errno())
