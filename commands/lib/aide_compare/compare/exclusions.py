"""The list of what is left out: the lines of files and of options, as one text. The proved program
reads it, and decides alone what a line names, and what stays whatever a line says.

Each file is looked up in the old database too, and so are the defaults and the table of severities:
one that was changed since the baseline was made, or that the baseline does not have, is reported.
"""
from __future__ import annotations

import base64
import os
import re
from collections.abc import Iterator, Mapping, Sequence
from functools import partial
from operator import methodcaller
from os.path import abspath, realpath
from typing import NamedTuple

from aide_compare.base.database import ABSENT, MAX_LINE, PATH_COLUMN, fields_in
from aide_compare.base.directories import MAX_LINKS
from aide_compare.base.ending import Fault, Status
from aide_compare.base.escapes import shown
from aide_compare.base.files import BLOCK, reopened, trusted_text
from aide_compare.base.paths import unescaped
from aide_compare.compare.unpack import Copy

MAX_SHOWN = 200  # Characters of a line that are told.
OPTION = b"--without="
OF_OPTION = "--exclude"  # The place of a line that an option gave.
# Linux has a limit for each argument, of which the last byte is a NUL.
MAX_EXCLUSIONS_BYTES = (1 << 17) - 1 - len(OPTION)
WHAT = "the file of --exclude-from"
COLUMNS = b"@@db_spec "
END = b"@@end_db"
# The columns of digests by which a file is looked up in a database.
DIGESTS = (b"sha512", b"sha256", b"sha3_512", b"sha3_256")
HAS_CHANGED = "which decides on reports, has changed since the baseline was made"
IS_MISSING = "which decides on reports, is not in the baseline"
LINK_COLUMN = b"lname"
NO_TEXT = "[\0\udc80-\udcff]"  # A zero byte, or one that is not UTF-8.
FAULT = re.compile(rb"aide: list:([0-9]+): ([^\n]*)\n")


class Line(NamedTuple):
    """A line of the list, and where it is written."""

    text: bytes
    place: str

    def words(self) -> str:
        """As in "/var/log/** (logs, line 3)"."""
        return f"{shown(self.text.strip(), MAX_SHOWN)} ({self.place})"


class Exclusions(NamedTuple):
    """The list."""

    lines: Sequence[Line]
    files: Mapping[bytes, bytes]  # The text of each file that is looked up, by its paths.
    # What the links say by which these files are reached, by their paths.
    links: Mapping[bytes, bytes]
    # What the old database should have, unless it has none of the directories above it.
    expected: Sequence[bytes] = ()

    @property
    def text(self) -> bytes:
        return b"\n".join(line.text for line in self.lines)

    def numbers_of(self, pattern: str) -> Iterator[int]:
        """The numbers of the lines that an option gave."""
        for number, line in enumerate(self.lines, 1):
            if line.place == OF_OPTION and line.text == os.fsencode(pattern):
                yield number

    def fault_in(self, errors: bytes) -> Fault | None:
        """The fault of a line that the program has refused, None if it says of none."""
        match = FAULT.match(errors)
        if match is None or not 0 < int(match[1]) <= len(self.lines):
            return None
        line = self.lines[int(match[1]) - 1]
        words = f"{line.place}: {shown(match[2])}: {shown(line.text.strip(), MAX_SHOWN)}"
        return Fault(Status.CONFIGURATION, words)

    def warnings(self, old: Copy) -> Iterator[str]:
        """What has to be said of files that are not as they were when a sound database was made.
        AIDE writes the path first in the line of an entry."""
        if not self.files:
            return
        above = {directory for path in self.expected for directory in directories_of(path)}
        files = {*self.files, *self.links}
        starts = (COLUMNS, END, *map(plain_start, files), *map(start_of_entry, above))
        known: set[bytes] = set()
        columns: list[bytes] = []
        with open(reopened(old.fd, os.O_RDONLY), "rb", BLOCK) as database:
            lines = iter(partial(database.readline, MAX_LINE + 2), b"")
            for line in filter(methodcaller("startswith", starts), lines):
                if line.startswith(END):
                    break
                if line.startswith(COLUMNS):
                    columns = fields_in(line)[1:]
                elif columns[:1] == [PATH_COLUMN]:
                    entry = dict(zip(columns, fields_in(line)))
                    path = unescaped(entry[PATH_COLUMN])
                    known.update({path} & (files | above))
                    if not self._is_as_in(entry, path):
                        yield f"{shown(path, MAX_SHOWN)}, {HAS_CHANGED}"
        for path in self.expected:
            if path not in known and known.intersection(directories_of(path)):
                yield f"{shown(path, MAX_SHOWN)}, {IS_MISSING}"

    def _is_as_in(self, entry: Mapping[bytes, bytes], path: bytes) -> bool:
        """Whether the file or the link at a path is as an entry has it, as far as that says."""
        if path in self.links and entry.get(LINK_COLUMN, ABSENT) != ABSENT:
            return unescaped(entry[LINK_COLUMN]) == self.links[path]
        return path not in self.files or is_text_of(entry, self.files[path])


def directories_of(path: bytes) -> Iterator[bytes]:
    """Those above a file, without the root."""
    while len(path := os.path.dirname(path)) > 1:
        yield path


def plain_start(path: bytes) -> bytes:
    """The beginning of a path that no version of AIDE writes with escapes."""
    return re.split(rb"[^/\w.-]", path, maxsplit=1)[0]


def start_of_entry(path: bytes) -> bytes:
    """The same, with the blank behind a path that has no escapes: not all that begins so."""
    start = plain_start(path)
    if start == path:
        start += b" "
    return start


def links_of(path: str) -> Iterator[tuple[str, str]]:
    """The links by which the file of a path is reached, and what they say. A database has no path
    that leads through a link to a directory."""
    for _ in range(MAX_LINKS):
        place, name = os.path.split(abspath(path))
        path = os.path.join(realpath(place), name)
        try:
            target = os.readlink(path)
        except OSError:  # It is none.
            return
        yield path, target
        path = os.path.join(os.path.dirname(path), target)


def is_text_of(entry: Mapping[bytes, bytes], text: bytes) -> bool:
    """Whether the digests of an entry are those of a text. One without a known digest says
    nothing."""
    import hashlib  # 4 MB that a database without these files does not need.

    for column in DIGESTS:
        field = entry.get(column, ABSENT)
        digest = hashlib.new(column.decode(), text).digest()
        if field not in (ABSENT, base64.b64encode(digest)):
            return False
    return True


def read_exclusions(
    files: Sequence[str], patterns: Sequence[str], others: Mapping[str, bytes]
) -> Exclusions:
    """The lines of --exclude-from FILE and of --exclude LINE, in the order of the command line.
    `others` are the texts of other files that decide on reports, if the databases are those of
    this machine: such as the defaults, which may have such options and a trusted pair."""
    texts = {path: trusted_text(path, WHAT) for path in files}
    lines: list[Line] = []
    for path, text in texts.items():
        for number, line in enumerate(text.split(b"\n"), 1):
            lines.append(Line(line, f"{shown(path, MAX_SHOWN)}, line {number}"))
    for pattern in patterns:
        if "\n" in pattern:
            raise Fault(Status.USAGE, f"--exclude has more than one line: {shown(pattern, 200)}")
        lines.append(Line(os.fsencode(pattern), OF_OPTION))
    texts.update(others)
    names = {}
    links: dict[bytes, bytes] = {}
    expected: list[bytes] = []
    for path, text in texts.items():
        # A database has no digest of a link, and may have known a file where a link is now.
        for name in (abspath(path), realpath(path)):
            names[os.fsencode(name)] = text
        links.update((os.fsencode(link), os.fsencode(target)) for link, target in links_of(path))
        expected.append(os.fsencode(realpath(path)))
    exclusions = Exclusions(lines, names, links, [*links, *expected] if others else ())
    refuse_other_texts(exclusions)
    return exclusions


def refuse_other_texts(exclusions: Exclusions) -> None:
    """Refuses what can be no argument of the program."""
    if len(exclusions.text) > MAX_EXCLUSIONS_BYTES:
        why = f"the lines of what is left out have more than {MAX_EXCLUSIONS_BYTES} bytes"
        raise Fault(Status.CONFIGURATION, why)
    for line in exclusions.lines:
        if re.search(NO_TEXT, line.text.decode("utf-8", "surrogateescape")):
            why = "it is not in UTF-8; write ? for any byte"
            raise Fault(Status.CONFIGURATION, f"{line.place}: {why}: {shown(line.text, MAX_SHOWN)}")
