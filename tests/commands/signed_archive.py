"""Packages that are built here, an archive of them, signed here, and a machine upgraded from it."""
from __future__ import annotations

import atexit
import base64
import copy
import functools
import gzip
import hashlib
import lzma
import os
import shutil
import subprocess
import time
from typing import Any, Callable

from tests.commands.made_up import MORE_ACL, Night, acl_of
from tests.commands.sandbox import CommandTest
from tests.lib.answer import Answer
from tests.lib.scratch import Scratch
from tests.oracle.agreement import same_as
from tests.oracle.database import database_of

PROGRAMS = ("gpg", "gpg-agent", "gpgv", "dpkg-deb")
INFO = b"/var/lib/dpkg/info/"
SUITE = "mirror/dists/stable"
TOOL, LIBRARY = b"/usr/bin/tool", b"/usr/lib/multi/lib.so"
ONE, TWO = b"one\n", b"two, of the upgraded package\n"
ODD = "/usr/share/tool/a b%ü".encode()
CONFIGURATION = b"/etc/tool.conf"
HOME = {
    "/var/lib/apt/lists": "lists",
    "/var/cache/apt/archives": "archives",
    "/var/lib/aide-compare/daily": "base",
    "/var/lib/aide": "base",
}
ARCHIVE = "aide-compare archive"
RELEASE = "Origin: Trial\nSuite: {suite}\nCodename: trial\nDate: {date}\n{more}SHA256:\n"
APTS_LISTS = b"/var/lib/apt/lists/"
KEPT = b"/var/cache/apt/archives/"
# What apt writes before the names of the indexes of a suite.
SITE = "archive.example.org_dists_stable_"
INDEXES = ("InRelease", "main_binary-amd64_Packages")
APPLIED = b"applied: 21 files\n"
MISSING = b"tool: the file of 2, the newest"


def sums_of(version: str) -> bytes:
    """What a package of a version has as its digests."""
    return b"sums of " + version.encode()


def gpg(scratch: Scratch, key: str, *words: str) -> bytes:
    """What gpg prints, with the home of a key."""
    command = ["gpg", "--homedir", scratch.path(key), "--batch", *words]
    return subprocess.run(command, check=True, capture_output=True).stdout


class Built:
    """A package as it is built: its files with their modes, and its links."""

    def __init__(self, name: str, version: str, architecture: str = "amd64") -> None:
        self.name = name
        self.version = version
        self.architecture = architecture
        self.files: dict[bytes, tuple[bytes, int]] = {}
        self.links: dict[bytes, bytes] = {}
        self.fields = ""
        self.written = 0  # When its files were written; 0 is now.
        self.more = 0  # Bytes of a last part, which dpkg passes over.

    def file(self, path: bytes, content: bytes, mode: int = 0o644) -> Built:
        self.files[path] = content, mode
        return self

    def link(self, path: bytes, target: bytes) -> Built:
        self.links[path] = target
        return self

    def build(self, sandbox: Scratch) -> None:
        """Makes its file in the mirror, and what an index says of it."""
        tree = sandbox.path("tree")
        shutil.rmtree(tree, ignore_errors=True)
        os.makedirs(tree + "/DEBIAN")
        control = f"Package: {self.name}\nVersion: {self.version}\n"
        control += f"Architecture: {self.architecture}\nMaintainer: T <t@example.org>\n"
        sandbox.write("tree/DEBIAN/control", (control + "Description: trial\n").encode())
        sandbox.write("tree/DEBIAN/md5sums", sums_of(self.version))
        if CONFIGURATION in self.files:
            sandbox.write("tree/DEBIAN/conffiles", CONFIGURATION + b"\n")
        for path, (content, mode) in self.files.items():
            place = os.fsencode(tree) + path
            os.makedirs(os.path.dirname(place), exist_ok=True)
            with open(place, "wb") as file:
                file.write(content)
            os.chmod(place, mode)
            if self.written:
                os.utime(place, (self.written, self.written))
        for path, target in self.links.items():
            os.symlink(target, os.fsencode(tree) + path)
        for folder, _, _ in os.walk(tree):
            os.chmod(folder, 0o755)
        file_name = f"pool/{self.name}_{self.version}_{self.architecture}.deb"
        os.makedirs(sandbox.path("mirror/pool"), exist_ok=True)
        made = sandbox.path("mirror/" + file_name)
        words = ["dpkg-deb", "--root-owner-group", "-Zxz", "--build", tree, made]
        subprocess.run(words, check=True, capture_output=True)
        part = f"{'_more':16}{0:<12}{0:<6}{0:<6}{0:<8}{self.more:<10}`\n".encode()
        data = sandbox.read(made) + part + bytes(self.more)
        sandbox.write(made, data)
        digest = hashlib.sha256(data).hexdigest()
        self.fields = f"{control}Filename: {file_name}\nSize: {len(data)}\nSHA256: {digest}\n"


class Place:
    """A signed mirror with packages, and two nights of a machine."""

    def __init__(self, sandbox: CommandTest) -> None:
        self.sandbox = sandbox
        self.old = Night()
        self.new = Night()
        self.built: list[Built] = []
        for night in (self.old, self.new):
            for path in (b"/", b"/usr", b"/usr/bin", b"/usr/share", b"/etc"):
                night.directory(path)
            night.link(b"/lib", b"usr/lib")
            for name in INDEXES:
                night.file(APTS_LISTS + f"{SITE}{name}".encode())
            night.link(b"/usr/bin/alias", b"true")
            night.file(b"/usr/bin/true", ONE, 0o100755)
            night.file(b"/usr/bin/passwd", ONE, 0o104755)

    def listed(self, name: str, version: str = "1") -> None:
        """A package that dpkg has unpacked again between the nights, with the version of now."""
        for night, text in ((self.old, "0"), (self.new, version)):
            night.file(INFO + name.encode() + b".list", sums_of(text))
            night.file(INFO + name.encode() + b".md5sums", sums_of(text))

    def came(self, name: str, version: str) -> None:
        """A package that dpkg has unpacked for the first time between the nights."""
        self.listed(name, version)
        for ending in (b".list", b".md5sums"):
            del self.old.entries[INFO + name.encode() + ending]

    def package(self, built: Built) -> None:
        built.build(self.sandbox)
        self.built.append(built)

    def sign(
        self,
        key: str = "gpg",
        more: str = "",
        ending: str = "",
        suite: str = "stable",
        **changed: bytes,
    ) -> None:
        """Writes the index and its signed text; `changed` is another index in its place."""
        index = "\n".join(built.fields for built in self.built).encode()
        pack: dict[str, Callable[[bytes], bytes]] = {".gz": gzip.compress, ".xz": lzma.compress}
        data = pack[ending](index) if ending else index
        folder = self.sandbox.path(SUITE)
        shutil.rmtree(folder, ignore_errors=True)
        os.makedirs(folder + "/main/binary-amd64")
        name = "main/binary-amd64/Packages" + ending
        self.sandbox.write(f"{SUITE}/{name}", changed.get("index", data))
        date = time.strftime("%a, %d %b %Y %H:%M:%S UTC", time.gmtime())
        text = RELEASE.format(date=date, more=more, suite=suite)
        text += f" {hashlib.sha256(data).hexdigest()} {len(data)} {name}\n"
        self.sandbox.write("release", text.encode())
        words = ["--yes", "--digest-algo", "SHA256", "--output", folder + "/InRelease"]
        gpg(made_once()[0], key, *words, "--clearsign", self.sandbox.path("release"))

    def ask(
        self, *words: str, sources: tuple[str, ...] = (SUITE,), keyring: str = "keys.gpg"
    ) -> Answer:
        """What the command answers. The nights are written first."""
        self.sandbox.write("host-old.db", self.old.database())
        self.sandbox.write("host-new.db", self.new.database())
        more = [f"--from={self.sandbox.path(source)}" for source in sources]
        more.append(f"--keyring={self.sandbox.path(keyring)}")
        names = ("host-old.db", "host-new.db")
        return self.sandbox.call("aide-compare archive", *more, *words, *names)

    def expect(self, answer: Answer, want: str, *paths: bytes) -> None:
        """What accounts for the changes of some paths, beside what was made."""
        for path in paths:
            self.sandbox.assertEqual(self.standing(answer, path), want, path)

    def standing(self, answer: Answer, path: bytes) -> str:
        """What accounts for a change beside the old database and the one that was made."""
        texts = (self.old.database(), self.new.database(), self.old.database(), answer.output)
        maps = [database_of(text).entries for text in texts]
        old, new, trusted_old, trusted_new = (entries.get(path) for entries in maps)
        return same_as(old, new, trusted_old, trusted_new) or "open"


def upgraded(sandbox: CommandTest) -> Place:
    """A machine on which two packages have come to their version 2."""
    place = Place(sandbox)
    place.listed("tool", "2")
    place.listed("lib:amd64", "2")
    made, built = made_once()
    shutil.copytree(made.path("mirror"), sandbox.path("mirror"))
    sandbox.write("keys.gpg", made.read("keys.gpg"))
    place.built = [copy.copy(each) for each in built]
    for night in (place.old, place.new):
        content = ONE if night is place.old else TWO
        night.file(TOOL, content, 0o100755).file(b"/usr/bin/true", content, 0o100755)
        night.file(b"/usr/bin/plain", content, 0o100755)
        night.directory(b"/usr/lib/multi").file(LIBRARY, content).directory(b"/usr/share/tool")
        night.file(b"/usr/share/tool/gone", ONE).file(CONFIGURATION, content)
        # A new file is measured as the one before it, and gets none of its rights.
        right = base64.b64encode(b"x").decode()
        night.file(b"/usr/share/tool/a", ONE, capabilities=right, acl=acl_of(MORE_ACL))
    del place.new.entries[b"/usr/share/tool/gone"]
    place.new.link(b"/usr/bin/alias", b"tool", size=4)
    place.new.link(b"/usr/bin/zero", b"0", lname="00", size=1)
    place.new.file(ODD, TWO).directory(b"/usr/share/tool/new")
    place.new.file(b"/usr/share/tool/new/file", TWO)
    return place


@functools.lru_cache(maxsize=None)
def made_once() -> tuple[Scratch, list[Built]]:
    """Two keys, of which the first is trusted, and the packages, for all tests of this process."""
    scratch = Scratch()
    scratch.make()
    atexit.register(scratch.remove)
    for key in ("gpg", "other"):
        os.mkdir(scratch.path(key), 0o700)
        words = ("--quick-gen-key", f"{key} <t@example.org>", "ed25519", "sign", "0")
        gpg(scratch, key, "--passphrase", "", *words)
        stop = ["gpgconf", "--homedir", scratch.path(key), "--kill", "all"]
        atexit.register(subprocess.call, stop, stderr=subprocess.DEVNULL)
    scratch.write("keys.gpg", gpg(scratch, "gpg", "--export"))
    tool = Built("tool", "2").file(TOOL, TWO, 0o755).file(b"/usr/bin/true", TWO, 0o755)
    tool.file(b"/usr/bin/plain", TWO, 0o4755).file(ODD, TWO).file(CONFIGURATION, TWO)
    tool.link(b"/usr/bin/alias", b"tool").link(b"/usr/bin/zero", b"0")
    tool.file(b"/usr/share/tool/new/file", TWO)
    built = [tool, Built("lib", "2").file(b"/lib/multi/lib.so", TWO)]
    built.append(Built("lib", "1.5").file(b"/lib/multi/lib.so", b"of another version\n"))
    for each in built:
        each.build(scratch)
    return scratch, built


def keep_as_apt(sandbox: CommandTest, place: Place) -> None:
    """Puts the indexes and the packages where apt keeps them."""
    os.makedirs(sandbox.path("archives"))
    keep_indexes(sandbox, "lists/" + SITE)
    for built in place.built:
        name = f"{built.name}_{built.version}_{built.architecture}.deb"
        shutil.copy(sandbox.path("mirror/pool/" + name), sandbox.path("archives/" + name))


def keep_indexes(sandbox: CommandTest, before: str) -> None:
    """Puts the indexes where apt keeps them, with this before their names."""
    os.makedirs(os.path.dirname(sandbox.path(before)), exist_ok=True)
    for name in INDEXES:
        shutil.copy(sandbox.path(f"{SUITE}/{name.replace('_', '/')}"), sandbox.path(before + name))


class ArchiveCase(CommandTest):
    """A test over a machine that was upgraded from a signed archive."""

    def setUp(self) -> None:
        super().setUp()
        self.needs(*PROGRAMS)
        self.place = upgraded(self)

    def applied(self, *words: str, told: bytes = APPLIED, **more: Any) -> Answer:
        """What the command makes of the packages."""
        answer = self.place.ask(*words, **more)
        self.expect(f"{words} {more}", answer, 0, errors=[told])
        return answer

    def not_made(self, told: bytes, status: int = 18, *words: str, **more: Any) -> None:
        """Nothing is made of them."""
        answer = self.place.ask(*words, **more)
        self.expect(f"{words} {more}", answer, status, output=b"", errors=[told])
