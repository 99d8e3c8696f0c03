"""Which changes are as packages' records on this host have them: dpkg's, or what rpm says. Whoever
is root there can write these, so they silence nothing: they group what people read. A mode, an
owner or another right that differs, or that nobody expects of a new file, stays open."""
from __future__ import annotations

import os
import re
import time
from collections.abc import Callable, Iterator, Mapping
from contextlib import suppress
from functools import cached_property
from io import BytesIO
from itertools import groupby, islice
from operator import itemgetter

from aide_compare.base.directories import closed_after, names_in, open_directory, others_can_write
from aide_compare.base.ending import DeviceFault, Fault, OSErrorAsFault
from aide_compare.base.escapes import shown
from aide_compare.base.files import BLOCK, digests_of, open_regular, private_file
from aide_compare.base.paths import key_of_path, path_of
from aide_compare.base.processes import PLAIN_ENVIRONMENT, run
from aide_compare.changes.table import DIRECTORIES, IN_KNOWN, RECORDABLE, Table
from aide_compare.changes.usr import link_here, usr_of
from aide_compare.lines.change import Change
from aide_compare.lines.readable import exact_bytes

DPKG = "/var/lib/dpkg"
MAX_BYTES = 256 << 20
MAX_STATUS = 32 << 20  # It is in memory, and most of it several times.
MAX_LISTS = 200000
READ_ONLY = os.O_NOFOLLOW | os.O_NONBLOCK
# A package that is there, and not only its configuration: the first lines of its paragraph.
STATE = rb"Status: .* (?!not-installed|config-files)\S+\n"
THERE = rb"Package: (\S+)\n(?:.+\n){0,9}?%b(?:.+\n){0,19}?Version: (\S+)" % STATE
CONFFILE = rb"(?m)^ (/.+) ([0-9a-f]{32})(?: obsolete| remove-on-upgrade)*$"
RPM = "/usr/bin/rpm"
RPM_DATABASES = ("/usr/lib/sysimage/rpm", "/var/lib/rpm")  # Without one rpm would make one.
# Of each file: 0 if rpm has written it, its package, its digest, where it points to, its path.
QUERY = "[%{FILESTATES}\\t%{=NAME} %{=EVR}\\t%{FILEDIGESTS}>%{FILELINKTOS}\\t%{FILENAMES}\\n]"
ROW = rb"0\t(?P<package>[^\t]*)\t(?P<value>[0-9a-f]*(?=>\t)|>[^\t]+)>?\t(?P<line>.+\n)"
MAX_SECONDS = 120
MAX_CONTENT = 2 << 30
# Changes whose lines have so many bytes are looked for at once, and so many members of packages are
# tried.
MAX_LINES = 1 << 23
MAX_MEMBERS = 1 << 21
# The kinds of digests by their letters in base 16.
LABELS = {32: "MD5", 40: "SHA1", 64: "SHA256", 128: "SHA512"}
# Two files with one digest of less than 256 bits may be made on purpose: these say what a content
# is, and every Python computes them.
STRONG = frozenset(("SHA256", "SHA512", "SHA3-256", "SHA3-512"))
# Of more changes it is found first which of their directories packages have: often none.
MANY = 10000

# What a package has of wanted lines: a digest in base 16; behind a > where a link points to; or "".
Members = dict[bytes, str]


class Dpkg:
    """dpkg's records in a directory, which nobody but root and the caller can write."""

    by = "dpkg"

    def __init__(self, path: str) -> None:
        self.words = f"dpkg's records in {shown(path)}"
        self.directory = open_directory(f"{path}/info")
        self.remaining = MAX_BYTES

    @cached_property
    def packages(self) -> dict[bytes, re.Match[bytes]]:
        """Those that are there, by their names. Often no list has a change, and nobody asks."""
        remaining, self.remaining = self.remaining, MAX_STATUS
        paragraphs = b"".join(self._lines("../status")).split(b"\n\n")
        self.remaining = remaining
        return {match[1]: match for match in map(re.compile(THERE).match, paragraphs) if match}

    def _lines(self, name: str, part: bytes = b"") -> Iterator[bytes]:
        """Yields the lines of those blocks of a file of the records that contain a part; none if
        the file is not there."""
        try:
            file = os.open(name, READ_ONLY, dir_fd=self.directory.fd)
        except FileNotFoundError:
            return
        with closed_after(file):
            at = 0
            while block := os.pread(file, BLOCK, at):
                end = block.rfind(b"\n") + 1 or len(block)  # No path is so long.
                at += end
                self.remaining -= end
                if self.remaining < 0:
                    raise DeviceFault(f"{self.words} are too large")
                if part in block:
                    if self.directory.others or others_can_write(os.fstat(file)):
                        who = "other users can write"
                        raise DeviceFault(f"{who} {self.words}: {shown(name)}")
                    yield from BytesIO(block[:end])

    def members(self, wanted: Mapping[bytes, int]) -> Iterator[tuple[str, Members]]:
        """Yields what each package has of the paths of these lines."""
        self.remaining = MAX_BYTES
        start = os.fsencode(os.path.commonprefix([*wanted]))
        with OSErrorAsFault(f"cannot read {self.words}"):
            for name in names_in(self.directory, ".list")[:MAX_LISTS]:
                # Most blocks have nothing of changes that are near each other.
                lines = sorted(wanted.keys() & self._lines(name, start))
                own_name = os.fsencode(name).partition(b":")[0].removesuffix(b".list")
                package = lines and self.packages.get(own_name)
                if package:
                    self.remaining -= len(package.string)  # Read again for each of its lists.
                    conffiles = dict(re.findall(CONFFILE, package.string))
                    members = {line: conffiles.get(line[:-1], b"").decode() for line in lines}
                    for row in self._lines(name.removesuffix("list") + "md5sums"):
                        line = b"/%b\n" % row[34:].removesuffix(b"\n")
                        if line in members and row[:32].isalnum():
                            members[line] = row[:32].decode()
                    yield shown(b"%b %b" % package.groups(), 200), members


class Rpm:
    """What rpm says of the packages of this machine."""

    by = "rpm"

    def __init__(self, directory: str) -> None:
        self.file = private_file()
        words = [RPM, "-qa", "--dbpath", directory, "--qf", QUERY]
        files = {1: self.file.fileno()}
        status = run(words, {}, files, PLAIN_ENVIRONMENT, time.monotonic() + MAX_SECONDS)
        if status != 0:
            raise DeviceFault(f"rpm did not say which packages there are: {status}")

    def members(self, wanted: Mapping[bytes, int]) -> Iterator[tuple[str, Members]]:
        """Yields each wanted line of a file that rpm has written, with its package."""
        self.file.seek(0)
        for match in filter(None, map(re.compile(ROW).fullmatch, self.file)):
            if match["line"] in wanted:
                yield shown(match["package"], 200), {match["line"]: os.fsdecode(match["value"])}


def records_of_host() -> Dpkg | Rpm | None:
    """The records of this machine; None if it has neither dpkg's nor rpm's."""
    if os.path.lexists(DPKG + "/status"):
        return Dpkg(DPKG)
    if os.path.isfile(RPM):
        return next(map(Rpm, filter(os.path.isdir, RPM_DATABASES)), None)
    return None


class Matcher:
    """Finds out which changes are as records have them."""

    def __init__(self, changes: Table, read: Callable[[int], Change]) -> None:
        self.changes = changes
        self.read = read
        self.usr = usr_of(link_here)
        self.remaining = MAX_CONTENT

    def match(self, records: Dpkg | Rpm) -> None:
        """Notes the changes that are recorded, each with the first package that has it."""
        question = RECORDABLE
        if len(self.changes) > MANY:
            found = self._members(records, DIRECTORIES)
            self.changes.keep_known(key_of_path(self.usr(line[:-1])) for _, _, line, _ in found)
            question = IN_KNOWN
        self.changes.record(
            (package, place)
            for place, package, line, members in islice(
                self._members(records, question), MAX_MEMBERS
            )
            if place and self.has(self.read(place), members[line], members)
        )

    def _members(
        self, records: Dpkg | Rpm, question: str
    ) -> Iterator[tuple[int, str, bytes, Members]]:
        """Yields the place of a change, a package with a line of its path, and all that the package
        has at once. What a link points to is there too, without a place."""
        for _, rows in groupby(self.changes.ask(question, MAX_LINES), itemgetter(0)):
            wanted: dict[bytes, int] = {}
            for _, place, key, recordable in rows:
                wanted.update(dict.fromkeys(self._lines(path_of(key)), place))
                if recordable == "target":
                    for line in self.targets(self.read(place)):
                        wanted.setdefault(line, 0)
            for package, members in records.members(wanted):
                for line in members:
                    yield wanted[line], package, line, members

    def _lines(self, path: bytes) -> set[bytes]:
        """The lines that records may have of a path: also without /usr, where that is a link."""
        bare = path.removeprefix(b"/usr")
        if self.usr(bare) == path:
            return {path + b"\n", bare + b"\n"}
        return {path + b"\n"}

    def targets(self, change: Change) -> set[bytes]:
        """The lines of the path to which a symbolic link points; none if that is not known. Of the
        links on the way only those to /usr are followed."""
        link = change.new.get("Lname")
        if not link or not isinstance(link, (str, bytes)):
            return set()
        joined = os.path.normpath(os.path.join(os.path.dirname(change.path), exact_bytes(link)))
        return self._lines(self.usr(b"/" + joined.lstrip(b"/")))

    def has(self, change: Change, value: str, members: Members) -> bool:
        """Whether a new entry has this digest, or points there; or to a path of the same package,
        since dpkg does not know where a link points to. If it has no digest of this kind, the file
        on this machine has to have both that and those of the entry."""
        if change.type == "Directory":
            return change.kind == "added"
        if change.type == "Link":
            is_there = value == f">{change.new.get('Lname')!s}"
            return is_there or not value and not self.targets(change).isdisjoint(members)
        label = LABELS.get(len(value), "")
        wanted = {each: change.new[each] for each in STRONG & change.new.keys()}
        if label in change.new or not (label and wanted):
            return change.new.get(label) == value
        wanted[label] = value
        with suppress(Fault, OSError), open(open_regular(change.path), "rb") as file:
            found = digests_of(file, wanted, self.remaining)
            self.remaining -= file.tell()
            return found == wanted
        return False
