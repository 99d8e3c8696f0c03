"""Files that packages no longer have.

dpkg keeps a list of the files of each package, and the old database has the digest of the former
one. That list is made once more: the present one without what only this version has, and with paths
that are gone. If it has that digest, these paths were the package's own.
"""
from __future__ import annotations

import io
import os
from collections.abc import Callable, Collection, Iterable
from typing import IO, NamedTuple

from aide_compare.changes.compiled import CACHED
from aide_compare.compare.kept_open import NEW_SIDE, OLD_SIDE, EntryReader, side_by_side
from aide_compare.base.paths import path_of
from aide_compare.compare.unpack import Copy

ROOT = b"/."
CACHE = b"__pycache__"
LINK = b"12"  # The digits of the mode of a link before the last four.


class Listed(NamedTuple):
    """A path in the list of a package. Links come behind all else, as dpkg-deb packs them."""

    is_link: bool
    path: bytes


def order_of(listed: Listed) -> tuple[bool, list[bytes]]:
    """The place of a path in a list."""
    if listed.path == ROOT:
        return listed.is_link, []
    return listed.is_link, listed.path.split(b"/")[1:]


class Sides:
    """Which of some paths only the new database has, and what only the old one has in the
    directories of these."""

    def __init__(self, paths: Collection[bytes], old: Copy, new: Copy) -> None:
        self.came: set[bytes] = set()
        self.gone: list[Listed] = []
        directories = {os.path.dirname(path) for path in paths}
        directories |= {os.path.join(directory, CACHE) for directory in directories}
        former, latter = EntryReader(old), EntryReader(new)
        for key, lines in side_by_side(former, latter):
            path = path_of(key)
            if path in paths and OLD_SIDE not in lines:
                self.came.add(path)
            if NEW_SIDE not in lines and os.path.dirname(path) in directories:
                mode = former.fields(lines[OLD_SIDE]).get("perm", b"")
                self.gone.append(Listed(mode[:-4] == LINK, path))


def former_list(
    listed: list[Listed], sides: Sides, known: Collection[bytes], moved: Callable[[bytes], bytes]
) -> tuple[list[Listed], IO[bytes]]:
    """What is gone of the directories of a package but is not known yet, and the list that the
    package had if all of that was its own. `moved` gives where a path of a list is."""
    directories = {os.path.dirname(moved(path)) for _, path in listed}
    gone = [
        each
        for each in sides.gone
        if each.path not in known and os.path.dirname(each.path) in directories
    ]
    # AIDE saw what else there is in the former version too, or does not look there at all.
    kept = [each for each in listed if moved(each.path) not in sides.came]
    former = sorted([*kept, *gone], key=order_of)
    return gone, io.BytesIO(b"".join(path + b"\n" for _, path in former))


def compiled_of(sources: Collection[bytes], sides: Sides) -> Iterable[bytes]:
    """The compiled files that are gone with their sources."""
    for _, path in sides.gone:
        match = CACHED(path)
        if match and match[1] + match[2] + b".py" in sources:
            yield path
