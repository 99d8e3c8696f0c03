"""Files that are put in the place of others, and private files."""
from __future__ import annotations

import contextlib
import ctypes
import os
import stat
import time
from collections.abc import Callable
from typing import Any
from unittest import mock

from tests.commands.units.calls import OTHER, PlacesTest, in_child

from aide_compare.base import files, replacement
from aide_compare.base.directories import closed_after, open_directory
from aide_compare.base.rights import become_owner

Replaced = tuple[bytes, int, int, list[str]]


def replaced(path: str, *texts: bytes) -> Replaced:
    """Replaces a file by some texts, one after the other: its text, mode and owner then, and what
    its folder has."""
    new = replacement.Replacement(path, what="the file").begin()
    for text in texts:
        new.commit([text])
    new.close()
    found = os.lstat(path)
    with open(path, "rb") as file:
        names = sorted(os.listdir(os.path.dirname(path)))
        return file.read(), stat.S_IMODE(found.st_mode), found.st_uid, names


def begun(path: str) -> None:
    with contextlib.closing(replacement.Replacement(path, what="the file").begin()):
        pass


def copied_over(path: str, text: bytes) -> tuple[bytes, int]:
    """Replaces a file by the bytes of an open one: its text and owner then."""
    with closed_after(files.in_memory(text)) as source:
        replacement.replace_by_copy(path, source)
    return files.read_file(path, 100), os.stat(path).st_uid


def held() -> int:
    return len(os.listdir("/proc/self/fd"))


def put(path: str, text: bytes, over: bool) -> tuple[bytes, list[str]]:
    """Puts a new file in place, or is refused there: what is there then."""
    with open_directory(path, make=True) as folder:
        with contextlib.closing(replacement.NewFile(folder.fd)) as new:
            os.write(new.fd, text)
            try:
                new.put("it", over)
            except FileExistsError:
                pass
        return files.read_file(path + "/it", 100), os.listdir(path)


class ReplacementTest(PlacesTest):
    def test_order(self) -> None:
        """A file is on the disk before it has its name, and the folder after that; by another name
        too, where it is an old one."""
        calls: list[str] = []
        order = self.path("order")

        def noting(name: str) -> Callable[..., Any]:
            real = getattr(os, name)

            def call(*given: Any, **more: Any) -> Any:
                is_folder = name == "fsync" and os.path.samestat(os.fstat(given[0]), os.stat(order))
                calls.append("folder" if is_folder else name)
                return real(*given, **more)

            return call

        with contextlib.ExitStack() as patches:
            for name in ("fsync", "link", "rename"):
                patches.enter_context(mock.patch.object(os, name, noting(name)))
            replaced(order + "/state", b"one")
        names = [call for call in calls if call in ("link", "rename")]
        self.assertTrue(names, calls)
        self.assertEqual(calls, ["fsync", *names, "folder"])

    def test_replacements(self) -> None:
        mask = os.umask(0o077)
        self.addCleanup(os.umask, mask)
        me = os.getuid()
        state = self.path("new/deep/state")
        self.gives((b"one", 0o644, me, ["state"]), replaced, state, b"one")
        self.gives((b"three", 0o644, me, ["state"]), replaced, state, b"two", b"three")
        self.assertEqual(stat.S_IMODE(os.stat(self.path("new")).st_mode), 0o755, "a new folder")
        for name, status, part in (
            ("own", 15, "is a directory"),
            ("own/file/", 15, "is a directory"),
            ("own/fifo", 18, "a FIFO"),
            ("own/short", 18, "a link"),
            ("group/state", 18, "other users"),
            ("own/file/state", 18, "Not a directory"),
            ("group/none/state", 18, "none is made where another user"),
        ):
            self.fails(status, part, begun, self.path(name))
        self.fails(15, "is a directory", replacement.Replacement, self.path("own"))
        late = replacement.Replacement(self.path("own/late"), what="the file").begin()
        os.mkfifo(self.path("own/late"))
        self.fails(18, "a FIFO", late.commit, b"x")
        self.assertTrue(stat.S_ISFIFO(os.lstat(self.path("own/late")).st_mode), "it stays")
        os.remove(self.path("own/late"))
        os.mkdir(self.path("own/late"))
        self.fails(15, "is a directory", late.commit, b"x")
        self.assertEqual(replaced(self.path("sticky/state"), b"x")[:3], (b"x", 0o644, me))
        with self.subTest("another user's places"):
            self.needs_root()
            self.fails(18, "other users", begun, self.path("his/state"))
            his = repr((b"x", 0o644, OTHER)).encode()
            self.gives(his, in_child, lambda: self.replaced_as_owner("his/state"))
            self.fails(
                18, "Permission denied", in_child, lambda: self.replaced_as_owner("his/roots/state")
            )
            os.chown(self.path("his/roots"), 1, 1)
            self.fails(18, "other users", begun, self.path("his/roots/state"))

    def replaced_as_owner(self, name: str) -> bytes:
        """Becomes the owner of a directory, and replaces a file there."""
        become_owner(self.path(name))
        return repr(replaced(self.path(name), b"x")[:3]).encode()

    def test_short_ways(self) -> None:
        replacement.replace(self.path("made/state"), b"x")
        self.assertEqual(self.read("made/state"), b"x")
        self.addCleanup(os.chdir, os.getcwd())
        os.chdir(self.root)
        replacement.replace("here", b"x")
        self.assertEqual(self.read("here"), b"x")
        self.gives((b"y", os.getuid()), copied_over, self.path("made/state"), b"y")
        self.fails(18, "No such file", copied_over, self.path("none/state"), b"y")
        with self.subTest("another user's places"):
            self.needs_root()
            self.fails(18, "other users", copied_over, self.path("his/state"), b"z")

    def test_exchange(self) -> None:
        self.write("one", b"1")
        self.write("other", b"2")
        with open_directory(self.root) as folder:
            given = (folder.fd, "one", "other")
            self.gives(True, replacement.exchange, *given)
            with mock.patch.object(replacement, "RENAME_EXCHANGE", 3):  # No call knows these flags.
                self.gives(False, replacement.exchange, *given)
            self.addCleanup(replacement.renameat2.cache_clear)
            replacement.renameat2.cache_clear()
            with mock.patch.object(ctypes, "CDLL", side_effect=OSError):
                self.gives(False, replacement.exchange, *given)
            replacement.renameat2.cache_clear()
            with self.assertRaises(FileNotFoundError):
                replacement.exchange(folder.fd, "one", "none")
        self.assertEqual((self.read("one"), self.read("other")), (b"2", b"1"))

    def test_leftovers(self) -> None:
        """What a killed run has left between two calls is removed by a later one, and what a run
        has that works now is not."""
        stale = replacement.STALE_SECONDS + 60
        for seconds, is_link, kept in ((0, False, 1), (stale, False, 0), (stale, True, 0)):
            path = self.path(f"left {seconds} seconds ago, {is_link}")
            replaced(path + "/state", b"one")
            child = os.fork()
            if child == 0:
                with mock.patch.object(os, "rename", lambda *_, **__: os._exit(0)):
                    replaced(path + "/state", b"two")
            os.waitpid(child, 0)
            left = set(os.listdir(path)) - {"state"}
            self.expect(path, len(left), 1)
            if is_link:
                os.remove(path + "/" + min(left))
                os.symlink("nothing", path + "/" + min(left))
            later = time.time() + seconds
            with mock.patch.object(time, "time", lambda: later):
                text, *_, names = replaced(path + "/state", b"three")
            self.expect(path + ", then", (text, len(names)), (b"three", 1 + kept))

    def test_nameless(self) -> None:
        self.check_new_files("new/nameless")
        # As on a file system that does not know files without a name.
        with mock.patch.object(os, "O_TMPFILE", os.O_DIRECTORY):
            self.check_new_files("new/named")
        with mock.patch.dict(os.environ, TMPDIR=self.path("none")):
            self.fails(18, "none (name another directory by TMPDIR): No such", files.nameless)

    def check_new_files(self, name: str) -> None:
        """A private file has no name. A new one takes the place of a former one, or is refused
        there; nothing else stays."""
        path = self.path(name)
        for text, over, kept in (
            (b"one", False, b"one"),
            (b"two", False, b"one"),
            (b"two", True, b"two"),
        ):
            self.expect(f"{name}: {text!r}, {over}", put(path, text, over), (kept, ["it"]))
        os.remove(path + "/it")
        with mock.patch.dict(os.environ, TMPDIR=path):
            descriptor = files.nameless()
        found = os.fstat(descriptor)
        os.close(descriptor)
        got = (stat.S_IMODE(found.st_mode), found.st_nlink, os.listdir(path))
        self.assertEqual(got, (0o600, 0, []), name)
        before = held()
        new = replacement.Replacement(path + "/state").begin()
        waiting = (os.listdir(path), held() - before)
        self.assertEqual(waiting, ([], 1), "nothing waits but the directory")
        new.commit([b"x"])
        self.assertEqual(held() - before, 1, "nothing more is open")
        new.close()
        begun(path + "/state")
        self.assertEqual(held() - before, 0, "all is closed")
        self.gives((b"x", 0o644, os.getuid(), ["state"]), replaced, path + "/state", b"x")
