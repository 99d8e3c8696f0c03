"""The packages of signed archives. Only what a signature leads to is believed: gpgv checks the one
of an InRelease file, which has the digests of indexes, and these have the digests of packages.

Which indexes and architectures count is what the old database says, and the administrator by the
names of directories. Nothing that the host has written since adds one."""
from __future__ import annotations

import gzip
import lzma
import os
import re
import time
from collections import Counter
from collections.abc import Callable, Collection, Iterable, Iterator, Mapping, Sequence
from email.utils import parsedate_to_datetime
from hashlib import sha256
from typing import IO, NamedTuple

from aide_compare.base.directories import closed_after
from aide_compare.base.ending import DeviceFault, OSErrorAsFault, write_all
from aide_compare.base.escapes import shown
from aide_compare.base.files import BLOCK, in_memory, nameless, open_regular, private_file
from aide_compare.base.files import read_file, read_whole
from aide_compare.base.processes import PLAIN_ENVIRONMENT, Taker, bounded, run
from aide_compare.base.program import Drain

MAX_INDEX = 128 << 20
MAX_RELEASE = 16 << 20
MAX_UNPACKED = 4 << 30
RELEASE = "InRelease"
LISTS = "lists"  # What apt calls the directory of its indexes.
SUITE_IN_LISTS = re.compile(rf"(?s).*_dists_([^_]*)(?:_.*)?_{RELEASE}").fullmatch
FILE = "/proc/self/fd/4"
KEYS = "--keyring=/proc/self/fd/5"
GPGV = ("gpgv", "--status-fd=3", "--weak-digest=SHA1", "--output=-", KEYS, FILE)
GOOD = re.compile(rb"^\[GNUPG:\] GOODSIG ", re.M)
BAD = re.compile(rb"^\[GNUPG:\] (?:BADSIG|NODATA|UNEXPECTED|ERROR)\b", re.M)
EXPIRES = re.compile(r"^Valid-Until: *(.+)$", re.M)
SUITES = re.compile(r"^(?:Suite|Codename): *(.+)$", re.M)
INDEX = re.compile(r"^ ([0-9a-f]{64}) +(\d+) ([\w.+/-]*/binary-[\w-]+/Packages)(|\.xz|\.gz)$", re.M)
Unpack = Callable[[bytes], bytes]
UNPACK: dict[str, Unpack] = {"": bytes, ".xz": lzma.decompress, ".gz": gzip.decompress}
FIELD = re.compile(r"^(Package|Version|Architecture|Filename|SHA256|Size): *(.*)$", re.M)
NAMED = {"Package", "Version", "Architecture"}
ALL = "all"

# What an index has of a package, by the names of its fields, and the path of the InRelease file.
Signed = dict[str, str]


class Release(NamedTuple):
    """A signed file that names indexes: its path, its suite, and the names of the indexes beside
    it that count; None for those below its directory, of which all do."""

    path: str
    suite: str
    indexes: Collection[str] | None


def run_tool(words: Sequence[str], takers: Mapping[int, Taker], files: Sequence[int]) -> int:
    """The status of a program of the system, whose descriptors from 4 on are these files."""
    return run(words, takers, dict(enumerate(files, 4)), PLAIN_ENVIRONMENT)


def signed_text(release: Release, keys: int) -> str:
    """The text of an InRelease file that one of the keys has signed for its suite."""
    name = shown(release.path)
    text = bytearray()
    lines = bytearray()
    with closed_after(in_memory(read_file(release.path, MAX_RELEASE, "the signed file "))) as file:
        # Its status says nothing: it also fails if one key of many is missing.
        takers = {
            1: bounded(text, MAX_RELEASE, "gpgv prints"),
            3: bounded(lines, MAX_RELEASE, "gpgv prints"),
        }
        run_tool(GPGV, takers, [file, keys])
    if not GOOD.search(lines) or BAD.search(lines):
        raise DeviceFault(f"gpgv finds no key of the keyrings that signed {name}")
    signed = text.decode("utf-8", "surrogateescape")
    if release.suite not in SUITES.findall(signed):
        raise DeviceFault(f"{name} is signed for another suite than {release.suite}")
    expires = EXPIRES.search(signed)
    if expires and parsedate_to_datetime(expires[1]).timestamp() < time.time():
        raise DeviceFault(f"{name} was valid until {shown(expires[1])}")
    return signed


def copy_signed(path: str, size: int, digest: str) -> int:
    """A private copy of a file that has this size and digest. It may be larger than memory."""
    copy = nameless()
    content = sha256()
    file = open_regular(path, "the signed file ")
    with closed_after(file), OSErrorAsFault(f"cannot copy {shown(path)}"):
        while size >= 0 and (block := os.read(file, BLOCK)):
            size -= len(block)
            content.update(block)
            write_all(copy, block)
    if size != 0 or content.hexdigest() != digest:
        raise DeviceFault(f"{shown(path)} is not as it was signed")
    os.lseek(copy, 0, os.SEEK_SET)
    return copy


def releases_of(directories: Iterable[str], known: Collection[str]) -> list[Release]:
    """The InRelease files of directories: that of a suite of a mirror, which whoever names it
    trusts; and of apt's lists those that the old database knows. Of all else only packages are
    read."""
    releases = []
    for directory in [os.path.abspath(path) for path in directories]:
        _, is_mirror, suite = directory.rpartition("/dists/")
        if is_mirror:
            path = os.path.join(directory, RELEASE)
            releases.append(Release(path, suite.split("/")[0], None))
        elif os.path.basename(directory) == LISTS:
            for match in filter(None, map(SUITE_IN_LISTS, sorted(known))):
                path = os.path.join(directory, match[0])
                releases.append(Release(path, match[1], known))
    return releases


def has_index(release: Release, path: str) -> bool:
    """Whether an index is read: if a mirror has it, or if the old database knows it, which must be
    there then, not packed with lz4: without it an older package could be the newest one."""
    if release.indexes is None:
        return os.path.isfile(path)
    name = os.path.basename(path)
    return name in release.indexes or f"{name}.lz4" in release.indexes


def packages_of(release: Release, keys: int) -> Iterator[Signed]:
    """The packages of the indexes that an InRelease file names: below its directory, or beside it
    with its name before theirs, as apt keeps them."""
    before = release.path[: -len(RELEASE)]
    for digest, size, name, ending in INDEX.findall(signed_text(release, keys)):
        if release.indexes is not None:
            name = name.replace("/", "_")
        path = before + name + ending
        if has_index(release, path):
            with closed_after(copy_signed(path, int(size), digest)) as copy:
                index = UNPACK[ending](read_whole(copy, MAX_INDEX, shown(path)))
            for paragraph in index.split(b"\n\n"):
                text = paragraph.decode("utf-8", "surrogateescape")
                yield {**dict(FIELD.findall(text)), RELEASE: release.path}


def is_less(version: str, other: str) -> bool:
    """Whether a version of a package is older than another one, as dpkg says."""
    status = run_tool(["dpkg", "--compare-versions", "--", version, "lt", other], {}, ())
    if not 0 <= status <= 1:
        raise DeviceFault(f"dpkg cannot compare two versions: {status}")
    return not status


def file_name(signed: Signed) -> str:
    """apt's name for the file of a package."""
    version = signed["Version"].replace(":", "%3a")
    return f"{signed['Package']}_{version}_{signed['Architecture']}.deb"


class Catalog:
    """What signed indexes have of wanted packages, by dpkg's own names of these: the newest
    version. And what they have of wanted files, by apt's names.

    dpkg's own name of a package has its architecture only if there may be several. Otherwise it is
    of the machine's, which most of its packages with such a name have, or of all."""

    def __init__(
        self, machine: Collection[str], owns: Collection[str], files: Collection[str]
    ) -> None:
        counts = Counter(own.partition(":")[2] for own in machine if ":" in own)
        self.architectures = {*counts, ALL}
        self.native = {ALL, *(name for name, _ in counts.most_common(1))}
        self.owns = set(owns)
        self.files = set(files)
        self.newest: dict[str, list[Signed]] = {}
        self.signed_files: dict[str, Signed] = {}

    def read(self, releases: Iterable[Release], keys: int) -> None:
        for release in releases:
            for signed in packages_of(release, keys):
                # What does not say its name and its version is no package.
                if NAMED <= signed.keys() and signed["Architecture"] in self.architectures:
                    self._take(signed)

    def _take(self, signed: Signed) -> None:
        owns = {f"{signed['Package']}:{signed['Architecture']}"}
        if signed["Architecture"] in self.native:
            owns.add(signed["Package"])
        owns &= self.owns
        is_file = bool(self.files) and file_name(signed) in self.files
        if (owns or is_file) and len(signed) < 7:  # Six fields, and the path of the signed file.
            raise DeviceFault(f"{shown(signed[RELEASE])}: a package lacks a field")
        if is_file:
            self.signed_files[file_name(signed)] = signed
        for own in owns:
            known = self.newest.setdefault(own, [])
            if known and is_less(known[0]["Version"], signed["Version"]):
                known.clear()
            if not known or known[0]["Version"] == signed["Version"]:
                known.append(signed)

    def supersedes(self, own: str, version: str) -> bool:
        """Whether a signed package is newer than this version."""
        return any(is_less(version, signed["Version"]) for signed in self.newest.get(own, ()))


def open_package(signed: Signed, directories: Sequence[str]) -> int | None:
    """A private copy of the file of a package: in a directory by apt's name for it, or where its
    mirror has it. None if it is nowhere, a Fault if it is another."""
    paths = [os.path.join(directory, file_name(signed)) for directory in directories]
    mirror, is_mirror, _ = signed[RELEASE].rpartition("/dists/")
    if is_mirror and ".." not in signed["Filename"].split("/"):
        paths.append(os.path.join(mirror, signed["Filename"]))
    path = next(filter(os.path.isfile, paths), None)
    if path is None:
        return None
    return copy_signed(path, int(signed["Size"]), signed["SHA256"])


def tar_of(package: int, part: str) -> IO[bytes]:
    """The tar file of a package, unpacked by dpkg-deb: its files ("fsys"), or what dpkg keeps of it
    ("ctrl")."""
    file = private_file()
    drain = Drain(MAX_UNPACKED, file.write)
    status = run_tool(["dpkg-deb", f"--{part}-tarfile", FILE], {1: drain.take}, [package])
    if status != 0 or drain.is_cut:
        raise DeviceFault(f"dpkg-deb cannot unpack a signed package: {status}")
    file.seek(0)
    return file
