"""Paths that are walked, private copies, and the program."""
from __future__ import annotations

import fcntl
import gzip
import hashlib
import os
import signal
import time
from unittest import mock

from tests.commands.units.calls import OTHER, PlacesTest

from aide_compare.base import files, processes, program
from aide_compare.base.directories import ANYBODY, open_directory
from aide_compare.base.ending import write_all
from aide_compare.compare import unpack


def others_of(path: str) -> tuple[list[int | str], bool]:
    with open_directory(path) as folder:
        return sorted(folder.others), folder.is_safe()


def text_of(path: str) -> bytes:
    descriptor = files.open_regular(path)
    try:
        return os.read(descriptor, 100)
    finally:
        os.close(descriptor)


def copied(path: str, most: int = 1 << 40) -> bytes | str:
    copy = unpack.copy_database("new", path, most)
    text, digest = os.pread(copy.fd, copy.size + 1, 0), copy.sha256
    os.close(copy.fd)
    return text if digest == hashlib.sha256(text).hexdigest() else "another SHA-256"


class FilesTest(PlacesTest):
    def test_walks(self) -> None:
        self.gives(([], True), others_of, self.path("own/../own/./inner"))
        self.gives(([ANYBODY], True), others_of, self.path("sticky"))
        self.gives(([], True), others_of, self.path("sticky/own"))
        self.gives(([ANYBODY], False), others_of, self.path("group"))
        with self.subTest("another user's places"):
            self.needs_root()
            self.gives(([OTHER], False), others_of, self.path("his"))
            self.gives(([OTHER], False), others_of, self.path("his/roots"))
        self.fails(18, "No such file", others_of, self.path("none"))
        self.fails(18, "Not a directory", others_of, "/etc/passwd")

    def test_links(self) -> None:
        for name, target in (
            ("own/whole", self.path("own/file")),
            ("own/up", ".."),
            ("own/loop", "loop"),
            ("sticky/mine", "file"),
            ("group/link", "../own/file"),
            ("his/link", "../own/file"),
            ("sticky/his", "file"),
        ):
            os.symlink(target, self.path(name))
        for name in ("own/file", "own/whole", "own/up/own/up/own/short", "sticky/mine"):
            self.gives(b"text", text_of, self.path(name))
        self.fails(18, "Too many", text_of, self.path("own/loop"))
        self.fails(18, "Not a directory", text_of, self.path("own/file/"))
        self.fails(18, "Not a directory", text_of, self.path("own/file/x"))
        self.fails(18, "a FIFO", text_of, self.path("own/fifo"))
        self.fails(18, "a directory", text_of, self.path("own"))
        self.fails(18, "a device", text_of, "/dev/zero")
        self.fails(18, "not followed", text_of, self.path("group/link"))
        with self.subTest("another user's links"):
            self.needs_root()
            os.chown(self.path("sticky/his"), OTHER, OTHER, follow_symlinks=False)
            self.fails(18, "not followed", text_of, self.path("his/link"))
            self.fails(18, "not followed", text_of, self.path("sticky/his"))

    def test_copies(self) -> None:
        text = b"".join(b"/a/%d %d\n" % (number, number**3) for number in range(60000))
        for packed in (
            text,
            gzip.compress(text),
            gzip.compress(text, 0),
            gzip.compress(text) + b"\0" * 600000,
        ):
            path = self.write("db", packed)
            self.gives(text, copied, path, len(text))
            self.fails(18, "has more than", copied, path, len(text) - 1)
        self.check_pipes(text[:999])

    def test_damaged_copies(self) -> None:
        text = b"".join(b"/a/%d %d\n" % (number, number**3) for number in range(600))
        whole = gzip.compress(text)
        for size in (3, 18, 1000, len(whole) - 8, len(whole) - 1):
            self.fails(18, "cut short", copied, self.write("db", whole[:size]))
        self.fails(18, "more follows", copied, self.write("db", whole + b"x"))
        self.fails(18, "zcat FILE | aide-compare OLD -", copied, self.path("db"))
        wrong_bit = whole[:-5] + bytes([whole[-5] ^ 1]) + whole[-4:]
        self.fails(18, "damaged", copied, self.write("db", wrong_bit))

    def test_members(self) -> None:
        """AIDE writes one member of gzip. Others behind it are refused at once, however many."""
        for more in (gzip.compress(b""), gzip.compress(b"x")):
            for between in (b"", b"\0" * 600000):
                packed = gzip.compress(b"a") + between + more * 100000
                self.fails(18, "more follows", copied, self.write("db", packed))

    def check_pipes(self, text: bytes) -> None:
        """A pipe may give its first byte alone. Here each read gives what one write put in."""
        for packed in (text, gzip.compress(text)):
            reading, writing = os.pipe2(os.O_DIRECT)
            os.write(writing, packed[:1])
            os.write(writing, packed[1:])
            os.close(writing)
            self.gives(text, copied, "/dev/fd/%d" % reading)
            os.close(reading)

    def test_no_end(self) -> None:
        """What waits for a device gives up: a write that takes nothing three times, and the end of
        a child that was killed."""
        with mock.patch.object(os, "write", return_value=0):
            with self.assertRaisesRegex(OSError, "the device takes no bytes"):
                write_all(1, b"x")
        with mock.patch.object(os, "write", side_effect=[0, 1, 0, 1, 0, 1]):
            write_all(1, b"xyz")
        child = os.fork()
        if not child:
            os.setpgid(0, 0)
            signal.pause()
        begun = time.monotonic()
        denied = mock.Mock(side_effect=PermissionError)  # As for a set-ID program.
        with mock.patch.multiple(processes, STOP_SECONDS=0.2):
            with mock.patch.object(os, "waitpid", return_value=(0, 0)):
                with mock.patch.multiple(os, killpg=denied, kill=denied):
                    self.gives(None, processes.stop, child)
                self.gives(None, processes.stop, child)
        self.assertLess(time.monotonic() - begun, 10)
        os.waitpid(child, 0)

    def test_programs(self) -> None:
        old, new = files.nameless(), files.nameless()
        self.addCleanup(os.close, old)
        self.addCleanup(os.close, new)
        os.write(old, b"old\n")
        os.write(new, b"new\n")
        body = 'cat /proc/self/fd/3 /proc/self/fd/4; echo "$LC_ALL $1"; echo why >&2; exit 5'
        path = self.stub("aide", body)
        for given, want in (
            ({3: old, 4: new}, b"old\nnew\nC a b\n"),
            ({3: new, 4: old}, b"new\nold\nC a b\n"),
        ):
            kept = bytearray()
            ended = program.run_program(path, ["a b"], given, kept.extend)
            self.expect("the descriptors", (*ended, bytes(kept)), (5, b"why\n", want))
        others = fcntl.fcntl(old, fcntl.F_DUPFD, 50)  # That programs inherit, as some of a shell.
        self.addCleanup(os.close, others)
        body = f"[ -e /proc/self/fd/{others} ] && exit 1; exit 0"
        ended = program.run_program(self.stub("aide", body), [], {3: new, 4: old}, len)
        self.expect("no other descriptors", ended, program.Answer(0, b""))
