"""The baseline in its directory, locked against other runs, and how another file takes its place,
so that no former one is lost."""
from __future__ import annotations

import errno
import os
import stat
from contextlib import suppress

from aide_compare.base.directories import ANYBODY, LISTING, PIECE, Directory, closed_after, failure
from aide_compare.base.directories import open_directory
from aide_compare.base.ending import DeviceFault, Fault, OSErrorAsFault, Status, why_of
from aide_compare.base.escapes import shown
from aide_compare.base.files import Lock, copy_file, new_file, refuse_other_kinds, reopened, unlink
from aide_compare.base.replacement import exchange, renameat2
from aide_compare.base.rights import become, entry_of

FILE_MODES = 0o666
FIRST_MODE = 0o600
CHANGED = "another process has changed it meanwhile"


# Which file it is, whatever its names are: its device and its inode.
Identity = tuple[int, int]


def identity(status: os.stat_result) -> Identity:
    return status.st_dev, status.st_ino


def _user_for(directory: Directory) -> int | None:
    """The user with whose rights a directory is changed; None for the caller's own."""
    if not directory.others:
        return None
    if ANYBODY in directory.others or len(directory.others) > 1:
        why = "more than one user can write in its directory, or above it; only its owner should"
        raise failure(errno.EPERM, why)
    if os.geteuid() != 0:
        why = "its directory, or one above it, belongs to another user"
        why += "; run this as that user or as root"
        raise failure(errno.EPERM, why)
    return min(directory.others)


class FormerFile:
    """The file that is the baseline when a run begins."""

    def __init__(self, descriptor: int) -> None:
        self.fd = descriptor
        self.status = os.fstat(descriptor)
        self.identity = identity(self.status)
        refuse_other_kinds(self.status.st_mode)


class Baseline:
    """The file of a path, or the place where it will be. Where another user can write in its
    directory, root opens what is needed of it, and becomes that user for good."""

    def __init__(self, path: str) -> None:
        self.path = path
        self.name = os.path.basename(path)
        if self.name in ("", ".", "..") or path == "-":
            raise Fault(Status.USAGE, f"the baseline needs the name of a file: {shown(path)}")
        self.words = f"cannot write the baseline {shown(path)}"
        self.previous = f"{self.name}.previous"
        # The new baseline until it has its name, a second name of it by which a later run knows it,
        # and where the former one is for a moment if the file system cannot exchange two names.
        self.part = f".{self.name}.part"
        self.mark = f".{self.name}.new"
        self.spare = f".{self.name}.former"
        self.place = os.path.dirname(path) or "."
        with open_directory(self.place) as directory, OSErrorAsFault(self.words):
            user = _user_for(directory)
            with OSErrorAsFault(f"{self.words}: its directory"):
                self.directory = os.open(".", LISTING, dir_fd=directory.fd)
            self._open_former()
        if user is not None:
            renameat2()
            become(entry_of(user))
        with OSErrorAsFault(f"{self.words}: its directory"):
            self.lock = Lock(self.directory, self.name)
        with OSErrorAsFault(self.words):
            if self._identity(self.name) != (self.former and self.former.identity):
                self._open_former()  # Another run has ended meanwhile.

    def close(self) -> None:
        self.lock.close()
        os.close(self.directory)

    def _open_former(self) -> None:
        self.former = self._former()
        self._readable = self._opened_former()

    def _former(self) -> FormerFile | None:
        with suppress(FileNotFoundError):
            return FormerFile(os.open(self.name, PIECE, dir_fd=self.directory))
        return None

    def _opened_former(self) -> int | None:
        if self.former is not None:
            with suppress(OSError):
                return reopened(self.former.fd, os.O_RDONLY | os.O_NONBLOCK)
        return None

    def reading(self) -> int | None:
        """A descriptor to read the former baseline from its beginning; None if there is none, or if
        the caller may not read it."""
        if self._readable is None:
            return None
        os.lseek(self._readable, 0, os.SEEK_SET)
        return os.dup(self._readable)

    def replace(self, source: int) -> None:
        """Makes a copy of an open file the baseline."""
        try:
            written = self._replace(source)
            # It could have been renamed: the path has to lead to the new baseline.
            with open_directory(self.place) as directory:
                status = os.stat(self.name, dir_fd=directory.fd, follow_symlinks=False)
            if identity(status) != identity(written):
                raise DeviceFault(CHANGED)
        except (Fault, OSError) as error:
            raise DeviceFault(f"{self.words}: {why_of(error)}")

    def settle(self) -> None:
        """Ends what a run has left that was killed while the names changed."""
        with OSErrorAsFault(self.words):
            if any(self._identity(name) for name in (self.part, self.mark, self.spare)):
                self._settle()

    def _replace(self, source: int) -> os.stat_result:
        """The work in the directory. From here on only names in the open directory and descriptors
        are used."""
        self._refuse_directory()
        self._settle()
        try:
            status = self._named_copy(source, self.mark)
            self._put_in_place()
        finally:
            self._settle()
        os.fsync(self.directory)
        return status

    def _refuse_directory(self) -> None:
        """A directory with the name of the former baseline would be in its way when the new one is
        there already."""
        with suppress(FileNotFoundError):
            status = os.stat(self.previous, dir_fd=self.directory, follow_symlinks=False)
            if stat.S_ISDIR(status.st_mode):
                raise failure(errno.EISDIR, f"{shown(self.previous)} is a directory")

    def _settle(self) -> None:
        """If the new file is the baseline, the former one becomes the copy that is kept, wherever
        it is. Otherwise all is as before. So the former baseline is found again whatever ends a
        run."""
        marked = self._identity(self.mark)
        is_replaced = marked is not None and marked == self._identity(self.name)
        for name in (self.part, self.spare):
            if is_replaced and self._is_another_file(name):
                self._rename(name, self.previous)
            unlink(name, self.directory)
        unlink(self.mark, self.directory)

    def _is_another_file(self, name: str) -> bool:
        """Whether a name has a file, and that is not the baseline."""
        return self._identity(name) not in (None, self._identity(self.name))

    def _identity(self, name: str) -> Identity | None:
        with suppress(FileNotFoundError):
            return identity(os.stat(name, dir_fd=self.directory, follow_symlinks=False))
        return None

    def _named_copy(self, source: int, name: str) -> os.stat_result:
        """Copies an open file, with owner and mode if that is allowed, to the disk before it gets
        the name."""
        new, given_name = new_file(self.directory, name)
        with closed_after(new):
            copy_file(source, new)
            mode = FIRST_MODE
            if self.former is not None:
                mode = self.former.status.st_mode & FILE_MODES
                self._give_to_owner(new, self.former.status)
            os.fchmod(new, mode)
            os.fsync(new)
            if not given_name:
                os.link(f"/proc/self/fd/{new}", name, dst_dir_fd=self.directory)
            return os.fstat(new)

    def _give_to_owner(self, new: int, former: os.stat_result) -> None:
        """Gives the new file to the owner of the former one, as far as the caller may."""
        if os.geteuid() == 0:
            os.fchown(new, former.st_uid, former.st_gid)
            return
        with suppress(PermissionError):
            os.fchown(new, -1, former.st_gid)

    def _put_in_place(self) -> None:
        """The new file gets the name. A former baseline keeps a name of its own, by which it is
        found and then kept."""
        if self.former is None:
            self._link(self.mark, self.name)
            return
        former = self.former.identity
        self._link(self.mark, self.part)
        self._check(self.name, former)
        if exchange(self.directory, self.part, self.name):
            self._check(self.part, former)
        else:  # The baseline has its name, or a new one, at every moment.
            self._link(self.name, self.spare)
            self._rename(self.part, self.name)
            self._check(self.spare, former)

    def _check(self, name: str, wanted: Identity) -> None:
        if self._identity(name) != wanted:
            raise failure(errno.ESTALE, CHANGED)

    def _link(self, name: str, other: str) -> None:
        directory = self.directory
        os.link(name, other, src_dir_fd=directory, dst_dir_fd=directory, follow_symlinks=False)

    def _rename(self, name: str, other: str) -> None:
        os.rename(name, other, src_dir_fd=self.directory, dst_dir_fd=self.directory)
