"""Directories that are opened without trust in whoever else can write near them.

A path is walked from the root, directory by directory, each opened by the one before. A symbolic
link on the way is followed only if it is root's or the caller's, and lies in a directory where no
other user can replace it.
"""
from __future__ import annotations

import errno
import os
import stat
from contextlib import suppress

from aide_compare.base.ending import OSErrorAsFault
from aide_compare.base.escapes import shown

ANYBODY = -1
OTHERS_WRITE = 0o022
MAX_LINKS = 40
# How a piece of a path is opened, a directory in which files are made, and one that is listed.
PIECE = os.O_PATH | os.O_NOFOLLOW | os.O_CLOEXEC
PLACE = os.O_PATH | os.O_DIRECTORY | os.O_CLOEXEC
LISTING = os.O_RDONLY | os.O_DIRECTORY | os.O_CLOEXEC


def others_can_write(status: os.stat_result) -> bool:
    """Whether a user who is neither root nor the caller can write a file with this status."""
    return status.st_uid not in (0, os.geteuid()) or bool(status.st_mode & OTHERS_WRITE)


def failure(number: int, text: str | None = None) -> OSError:
    return OSError(number, text or os.strerror(number))


class closed_after:  # Named as those of contextlib, of which a generator takes longer.
    """A descriptor that is closed at the end of a block, which gets it."""

    def __init__(self, descriptor: int) -> None:
        self.descriptor = descriptor

    def __enter__(self) -> int:
        return self.descriptor

    def __exit__(self, *_: object) -> None:
        os.close(self.descriptor)


class Directory:
    """An open directory, the root at first.

    `others` are the users, neither root nor the caller, who can write in it or above it; ANYBODY is
    one of them if a group or everybody can. Above, a sticky directory counts only for its owner.
    `sticky`: nobody but ANYBODY is in `others`, and only by this directory, where each name belongs
    to the owner of its file.
    """

    def __init__(self) -> None:
        self.fd = -1
        self.enter_root()

    def enter_root(self) -> None:
        self._passed_on: frozenset[int] = frozenset()
        self.enter(os.open("/", PIECE | os.O_DIRECTORY))

    def enter(self, descriptor: int) -> None:
        """It becomes a directory in it, which was opened by it."""
        if self.fd >= 0:
            self.close()
        self.fd = descriptor
        status = os.fstat(descriptor)
        owners = self._passed_on | ({status.st_uid} - {0, os.geteuid()})
        self.others = owners
        if status.st_mode & OTHERS_WRITE:
            self.others |= {ANYBODY}
        is_sticky = bool(status.st_mode & stat.S_ISVTX)
        self.sticky = is_sticky and not owners and ANYBODY in self.others
        self._passed_on = self.others
        if is_sticky:
            self._passed_on = owners

    def is_safe(self) -> bool:
        """Whether nobody else can put a name here in place of one of root's or the caller's."""
        return not self.others or self.sticky

    def opened(self, name: str, make: bool) -> int:
        """A descriptor (O_PATH) of what has a name in it. A directory may be made if there is
        nothing."""
        try:
            return os.open(name, PIECE, dir_fd=self.fd)
        except FileNotFoundError:
            if not make:
                raise
            if not self.is_safe():
                text = "No such file or directory, and none is made where another user can write"
                raise failure(errno.ENOENT, text)
        mask = os.umask(0o022)
        try:
            with suppress(FileExistsError):
                os.mkdir(name, 0o755, dir_fd=self.fd)
        finally:
            os.umask(mask)
        return os.open(name, PIECE, dir_fd=self.fd)

    def close(self) -> None:
        os.close(self.fd)

    def __enter__(self) -> Directory:
        return self

    def __exit__(self, *_: object) -> None:
        self.close()


def _pieces(path: str) -> list[str]:
    """The pieces of a path, the first one last."""
    return [piece for piece in reversed(path.split("/")) if piece not in ("", ".")]


def _target_of(link: int, directory: Directory) -> str:
    """What a symbolic link in a directory names. The link is followed only if it is root's or the
    caller's, and nobody else can replace it."""
    with closed_after(link):
        if os.fstat(link).st_uid not in (0, os.geteuid()) or not directory.is_safe():
            raise failure(
                errno.ELOOP, "a link that another user could have put there is not followed"
            )
        return os.readlink("", dir_fd=link)


def walked(path: str | bytes, make: bool = False) -> tuple[Directory, int | None]:
    """Where a path ends, with nobody else's links on the way: in a directory, and at the descriptor
    (O_PATH) of a file there; None if the path is that of the directory."""
    name = os.fsdecode(path)
    if "\0" in name or not name:
        raise failure(errno.ENOENT)
    if not name.startswith("/"):
        name = os.path.join(os.getcwd(), name)
    pieces = _pieces(name)
    directory = Directory()
    links = 0
    try:
        while pieces:
            descriptor = directory.opened(pieces.pop(), make)
            mode = os.fstat(descriptor).st_mode
            if stat.S_ISDIR(mode):
                directory.enter(descriptor)
            elif stat.S_ISLNK(mode):
                target = _target_of(descriptor, directory)
                links += 1
                if links > MAX_LINKS:
                    raise failure(errno.ELOOP)
                if target.startswith("/"):
                    directory.enter_root()
                pieces += _pieces(target)
            elif pieces or name.endswith("/"):
                os.close(descriptor)
                raise failure(errno.ENOTDIR)
            else:
                return directory, descriptor
        return directory, None
    except BaseException:
        directory.close()
        raise


def open_directory(path: str | bytes, make: bool = False) -> Directory:
    """Opens a directory. With `make`, missing ones are made (0755), but only where no other user
    could replace them."""
    with OSErrorAsFault(f"cannot open the directory {shown(path)}"):
        directory, file = walked(path, make)
        if file is not None:
            os.close(file)
            directory.close()
            raise failure(errno.ENOTDIR)
        return directory


def names_in(directory: Directory, ending: str) -> list[str]:
    """The names of files in a directory that have this ending, in order, without hidden ones."""
    with closed_after(os.open(".", LISTING, dir_fd=directory.fd)) as listing:
        names = os.listdir(listing)
    return sorted(name for name in names if name.endswith(ending) and not name.startswith("."))
