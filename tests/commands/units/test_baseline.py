"""The baseline in its directory: what it becomes, what a killed run has left, and what another
process does between two steps; and what accept lets the program read."""
from __future__ import annotations

import contextlib
import fcntl
import os
import signal
import stat
import unittest
from collections import Counter
from collections.abc import Callable, Iterator
from types import SimpleNamespace
from typing import Any
from unittest import mock

from tests.commands.units.calls import OTHER, ModuleTest, in_child

from aide_compare.base import files, replacement
from aide_compare.base.files import in_memory
from aide_compare.commands import accept
from aide_compare.compare import baseline
from aide_compare.compare.baseline import CHANGED, Baseline
from aide_compare.compare.kept_open import Merged
from aide_compare.compare.unpack import Copy

NAME = "aide.db"
KEPT = "aide.db.previous"
MARK = ".aide.db.new"
PART = ".aide.db.part"
LOCK = ".aide.db.lock"


@contextlib.contextmanager
def opened(path: str) -> Iterator[Baseline]:
    made = Baseline(path)
    try:
        yield made
    finally:
        made.close()
        if made.former:
            os.close(made.former.fd)


def replace(path: str, source: int) -> None:
    with opened(path) as made:
        made.replace(source)


class BaselineTest(ModuleTest):
    def setUp(self) -> None:
        super().setUp()
        self.source = in_memory(b"new")
        self.addCleanup(os.close, self.source)
        self.base = self.path(NAME)

    def fresh(self, **files: bytes) -> None:
        """The directory has only these files, by their words in it."""
        for name in os.listdir(self.root):
            os.remove(self.path(name))
        names = {"base": NAME, "mark": MARK, "part": PART, "secret": "secret"}
        for word, text in files.items():
            self.write(names[word], text)

    def texts(self) -> dict[str, bytes]:
        return {name: self.read(name) for name in os.listdir(self.root)}

    def rights(self, name: str) -> tuple[int, int, int]:
        found = os.lstat(self.path(name))
        return stat.S_IMODE(found.st_mode), found.st_uid, found.st_gid

    def test_replaced(self) -> None:
        self.addCleanup(os.chdir, os.getcwd())
        os.chdir(self.root)
        replace(NAME, self.source)
        self.expect("the first one", (self.texts(), self.rights(NAME)[0]), ({NAME: b"new"}, 0o600))
        owner = (12345, 12346) if os.getuid() == 0 else (os.getuid(), os.getgid())
        # As it is, and as on file systems that exchange no names, or know no files without one.
        machines: tuple[Any, ...] = (
            contextlib.nullcontext(),
            mock.patch.object(baseline, "exchange", lambda *_: False),
            mock.patch.object(os, "O_TMPFILE", os.O_DIRECTORY),
        )
        for machine in machines:
            self.fresh(base=b"old")
            os.symlink(".", self.path(KEPT))
            os.chown(self.base, *owner)
            os.chmod(self.base, 0o4755)
            with machine:
                replace(self.base, self.source)
            self.expect("the texts", self.texts(), {NAME: b"new", KEPT: b"old"})
            self.expect("the new one", self.rights(NAME), (0o644, *owner))
            self.expect("the former one", self.rights(KEPT), (0o4755, *owner))

    def replace_and_look(self) -> bytes:
        """Replaces the baseline: who owns it then."""
        replace(self.base, self.source)
        found = os.stat(self.base)
        return repr((found.st_uid, found.st_gid)).encode()

    def replace_as_other(self) -> bytes:
        """Replaces the baseline with the rights of another user: who owns it then."""
        os.setgroups([12346])
        os.setresgid(OTHER, OTHER, OTHER)
        os.setresuid(OTHER, OTHER, OTHER)
        return self.replace_and_look()

    @unittest.skipUnless(os.getuid() == 0, "it needs root")
    def test_anothers(self) -> None:
        self.fresh(base=b"old")
        os.chown(self.root, OTHER, OTHER)
        self.gives(repr((OTHER, OTHER)).encode(), in_child, self.replace_and_look)
        self.expect("the texts", self.texts(), {NAME: b"new", KEPT: b"old"})
        self.expect("the new one", self.rights(NAME), (0o644, OTHER, OTHER))
        os.mkdir(self.path("second"))
        os.chown(self.path("second"), 1, 1)
        self.fails(18, "more than one user", replace, self.path("second/aide.db"), self.source)

    @unittest.skipUnless(os.getuid() == 0, "it needs root")
    def test_group(self) -> None:
        """Who is not root keeps the group of the former one, in his own directory only."""
        self.fresh(base=b"old")
        os.chown(self.base, OTHER, 12346)
        os.chown(self.root, 1, 1)
        self.fails(18, "belongs to another user", in_child, self.replace_as_other)
        os.chown(self.root, OTHER, OTHER)
        self.gives(b"(%d, 12346)" % OTHER, in_child, self.replace_as_other)
        self.expect("the new one", self.rights(NAME), (0o644, OTHER, 12346))

    def test_names(self) -> None:
        self.fails(15, "name of a file: -", Baseline, "-")

    def test_lock(self) -> None:
        """It is a file that only its owner can open, and that goes with the lock: who may only read
        the directory cannot keep it locked."""
        self.fresh(base=b"old")
        reading = os.open(self.root, os.O_RDONLY)
        self.addCleanup(os.close, reading)
        fcntl.flock(reading, fcntl.LOCK_EX)
        with mock.patch.object(files, "SECONDS_FOR_LOCK", 0), opened(self.base):
            self.expect("its rights", self.rights(LOCK)[0], 0o600)
            self.fails(18, "locked it for 0 seconds", Baseline, self.base)
        self.expect("what is left", self.texts(), {NAME: b"old"})
        os.symlink("secret", self.path(LOCK))
        self.fails(18, "its directory: ", Baseline, self.base)
        self.expect("what is left", sorted(os.listdir(self.root)), [LOCK, NAME])

    def test_waited(self) -> None:
        """Another run has replaced the baseline and removed its lock while this one waited."""
        self.fresh(base=b"old")

        def replaced_first(descriptor: int, deadline: float) -> bool:
            if locks:
                return True
            locks.append(descriptor)
            self.write(NAME + "2", b"other")
            os.rename(self.path(NAME + "2"), self.base)
            os.unlink(self.path(LOCK))
            return True

        locks: list[int] = []
        with mock.patch.object(files, "is_locked", replaced_first), opened(self.base) as made:
            self.expect("its lock", os.fstat(made.lock.fd).st_nlink, 1)
            reading = made.reading()
            self.expect("the former one", reading and os.read(reading, 9), b"other")

    def test_lease(self) -> None:
        """Another user's lease of the baseline does not keep the command waiting."""
        self.fresh(base=b"old")
        before = signal.signal(signal.SIGIO, signal.SIG_IGN)
        self.addCleanup(signal.signal, signal.SIGIO, before)
        with open(self.base, "r+b") as file:
            try:
                fcntl.fcntl(file, fcntl.F_SETLEASE, fcntl.F_WRLCK)
            except OSError:
                self.skipTest("nothing can be leased here")
            with opened(self.base) as made:
                self.assertIsNone(made.reading())

    def test_settled(self) -> None:
        """What a run has left that was killed after and before the names were exchanged."""
        for texts, linked, want in (
            ({"base": b"new", "part": b"old"}, NAME, {NAME: b"new", KEPT: b"old"}),
            ({"base": b"old", "mark": b"new"}, PART, {NAME: b"old"}),
            ({"base": b"old", "part": b"x"}, None, {NAME: b"old"}),
        ):
            self.fresh(**texts)
            if linked == NAME:
                os.link(self.base, self.path(MARK))
            elif linked == PART:
                os.link(self.path(MARK), self.path(PART))
            with opened(self.base) as made:
                made.settle()
            self.expect(f"{texts} settled", self.texts(), want)

    def swap(self, target: str) -> None:
        """Another process moves the baseline away, and puts a link in its place."""
        os.rename(self.base, self.path("moved"))
        os.symlink(target, self.base)

    def test_swapped(self) -> None:
        """A baseline that another process moves, at whatever moment, is found out."""
        exchange: Callable[..., bool] = replacement.exchange

        def swapped_first(*given: object) -> bool:
            self.swap("moved")
            return exchange(*given)

        def swapped_then(*given: object) -> bool:
            is_done = exchange(*given)
            self.swap("moved")
            return is_done

        def swapped_instead(*_: object) -> bool:
            self.swap("secret")
            return False

        calls: tuple[Callable[..., bool], ...] = (swapped_first, swapped_then, swapped_instead)
        for call in calls:
            self.fresh(base=b"old", secret=b"x")
            with mock.patch.object(baseline, "exchange", call):
                self.fails(18, CHANGED, replace, self.base, self.source)
            self.assertEqual(os.stat(self.path("secret")).st_nlink, 1, call)
        self.fresh(base=b"old")
        with opened(self.base) as made:
            self.swap("moved")
            self.fails(18, CHANGED, made.replace, self.source)
            self.assertEqual(os.readlink(self.base), "moved", "nothing is replaced")


class AcceptWorkTest(ModuleTest):
    def copy(self, text: bytes) -> Copy:
        descriptor = in_memory(text)
        self.addCleanup(os.close, descriptor)
        return Copy(descriptor, "new.db", None)

    def test_merged(self) -> None:
        """The program reads both databases, and then what was merged of them."""
        new, merged = self.copy(b"new"), self.copy(b"merged")
        old = in_memory(b"old")
        baseline: Any = SimpleNamespace(path="old.db", reading=lambda: old)
        request = accept.AcceptRequest("new.db", "old.db", "", (), 1 << 20)
        result = Merged(merged, Counter[str](), [])
        with mock.patch.object(accept, "keep_open", return_value=result):
            with mock.patch.object(accept, "refuse_unsound") as refuse:
                got = accept.merge(request, new, baseline)
        self.expect("the merged one", got, result)
        self.expect(
            "what is read", refuse.mock_calls, [mock.call(new, mock.ANY), mock.call(merged)]
        )
