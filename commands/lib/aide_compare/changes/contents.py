"""Files of signed packages that are needed whole: sources of Python, interpreters, certificates."""
from __future__ import annotations

import os
import re
from typing import IO, NamedTuple

from aide_compare.base.files import private_file

MAX_CONTENT = 64 << 20
MAX_LINKS = 8
NEEDED = re.compile(
    rb"(?s).*/[^/]+\.py|/usr/bin/python3\.\d+|/usr/share/ca-certificates/.*\.crt"
).fullmatch


class NotMade(Exception):
    """What a script of a package makes of files cannot be made here, and why."""


class Place(NamedTuple):
    """Where a file is kept, its size, and when it was written."""

    start: int
    size: int
    written: int


class Contents:
    """What was taken of such files, in a private file."""

    def __init__(self) -> None:
        self.file = private_file()
        self.places: dict[bytes, Place | None] = {}
        self.targets: dict[bytes, bytes] = {}

    def take(self, path: bytes, content: IO[bytes], size: int, written: int) -> None:
        """Keeps a file if it is of use here. One of which two packages have other bytes is not
        kept."""
        if not NEEDED(path) or size > MAX_CONTENT:
            return
        content.seek(0)
        text = content.read(size)
        if path in self.places:
            if self.text(path) != text:
                self.places[path] = None
            return
        self.places[path] = Place(self.file.seek(0, os.SEEK_END), size, written)
        self.file.write(text)

    def link(self, path: bytes, target: bytes) -> None:
        """Notes where a link leads that has the name of such a file."""
        if NEEDED(path):
            self.targets[path] = os.path.normpath(os.path.join(os.path.dirname(path), target))

    def place(self, path: bytes) -> Place | None:
        """Where a file is kept, by its path or that of a link; None if it was not taken."""
        for _ in range(MAX_LINKS):
            path = self.targets.get(path, path)
        return self.places.get(path)

    def below(self, directory: bytes) -> list[bytes]:
        """The paths of the files below a directory."""
        return [path for path, place in self.places.items() if place and path.startswith(directory)]

    def text(self, path: bytes) -> bytes | None:
        """The bytes of a file; None if it was not taken."""
        place = self.place(path)
        if place is None:
            return None
        self.file.seek(place.start)
        return self.file.read(place.size)
