"""Attacks on aide-compare accept by the owner of the baseline's folder: what is root's stays."""
from __future__ import annotations

import gzip
import os
import shutil
import stat
from collections.abc import Callable, Iterator
from typing import Any

from tests.lib.answer import Answer
from tests.lib.program_test import slow

from .accepting import DIGEST, TOOL, AcceptingTest, accept_at, contents, forked, fresh
from .forked import Forked
from .sandbox import CommandTest, NEW, NOBODY, OLD, sha256

# These calls take no name, so they do the same if names change places for the call.
NAMELESS = "read pread64 write flock fsync fchmod fchown setresuid".split()
FOR_THE_CALL, FOR_GOOD = 2, 3
BASELINE = "theirs/base/aide.db"
SECRET = b"what only root may read and write\n"
# For each attack two names in theirs/ that change places, and where the second one, a link, leads.
KINDS = {
    "baseline": ("base/aide.db", "base/trap", "root/secret"),
    "folder": ("base", "trap", "root"),
    "moved folder": ("base", "second", None),
}


def put(sandbox: CommandTest, kind: str) -> tuple[str, str]:
    """Makes the folders anew. Returns the two names of an attack."""
    sandbox.needs_root()
    for name in ("root", "theirs"):
        shutil.rmtree(sandbox.path(name), ignore_errors=True)
    for name in ("root/secret", "root/aide.db"):
        sandbox.write(name, SECRET, 0o600)
    for name in (BASELINE, "theirs/second/aide.db"):
        sandbox.write(name, OLD, 0o600)
    sandbox.write("new", NEW, 0o600)
    for folder, _, names in os.walk(sandbox.path("theirs")):
        for path in [folder] + [os.path.join(folder, name) for name in names]:
            os.chown(path, NOBODY, NOBODY)
    one, other, target = KINDS[kind]
    if target:
        os.symlink(sandbox.path(target), sandbox.path("theirs/" + other))
    return sandbox.path("theirs/" + one), sandbox.path("theirs/" + other)


def roots(sandbox: CommandTest) -> dict[str, tuple[int, int, int, bytes]]:
    """All that is in root's folder, and the folder: owner, mode, and the bytes of files."""
    found = {}
    for folder, folders, names in os.walk(sandbox.path("root")):
        for path in [folder] + [os.path.join(folder, name) for name in folders + names]:
            entry = os.lstat(path)
            data = sandbox.read(path) if stat.S_ISREG(entry.st_mode) else b""
            found[path] = entry.st_uid, entry.st_gid, entry.st_mode, data
    return found


def made_by_root(sandbox: CommandTest) -> Iterator[str]:
    """The regular files in the other user's folder that are not his."""
    for folder, _, names in os.walk(sandbox.path("theirs")):
        for name in names:
            found = os.lstat(os.path.join(folder, name))
            if stat.S_ISREG(found.st_mode) and found.st_uid != NOBODY:
                yield name


def harm(sandbox: CommandTest, before: dict[str, Any]) -> list[object]:
    """What an attack has changed of root's, and what root's rights made in the other's folder."""
    now = roots(sandbox)
    changed = [(path, before.get(path), now.get(path)) for path in before.keys() | now.keys()]
    return [entry for entry in changed if entry[1] != entry[2]] + list(made_by_root(sandbox))


def moments(calls: list[str], ways: tuple[int, ...]) -> Iterator[tuple[int, int]]:
    """Before which calls names change places, and how: each that takes a name, and for good also
    the first one that takes none after such a call."""
    former = ""
    for number, call in enumerate(calls, 1):
        for way in ways:
            if call not in NAMELESS or way == FOR_GOOD and former not in NAMELESS:
                yield number, way
        former = call


@slow
class AcceptAttacksTest(AcceptingTest):
    def at_call(self, command: Forked, kind: str, **options: Any) -> tuple[Answer, list[object]]:
        """Two names change places before the call with a number: the answer, and what is harmed."""
        one, other = put(self, kind)
        before, mark = roots(self), self.path("marks/swapped")
        words = ("--sha256", DIGEST, "new", BASELINE)
        done = command.call(*words, **options, AT_ONE=one, AT_OTHER=other, AT_MARK=mark)
        if "AT_NUMBER" in options:
            os.rmdir(mark)
        return done, harm(self, before)

    def at_all_calls(self, kind: str, ways: tuple[int, ...] = (FOR_THE_CALL, FOR_GOOD)) -> set[int]:
        """The names change places before each call in turn, what is root's stays: the statuses."""
        os.makedirs(self.path("marks"), exist_ok=True)
        os.chmod(self.path("marks"), 0o777)
        command = forked(self)
        done, found = self.at_call(command, kind, AT_NOTES=2)
        self.assertEqual((done.status, found), (0, []), done)
        statuses: list[int] = []
        for number, way in moments(done.error_text.split(), ways):
            options = {"AT_NUMBER": number, "AT_WAY": way}
            done, found = self.at_call(command, kind, **options)
            self.assertEqual(found, [], (kind, options, done))
            self.assertIn(done.status, (0, 18), (kind, options, done))
            statuses.append(done.status)
        self.assertGreater(len(statuses), 12 * len(ways), "moments")
        return set(statuses)

    def test_baseline_at_calls(self) -> None:
        self.assertEqual(self.at_all_calls("baseline"), {0, 18})

    def test_folder_at_calls(self) -> None:
        self.assertEqual(self.at_all_calls("folder"), {0, 18})

    def test_moved_folder(self) -> None:
        """The folder gets another name: the bytes go where it goes, and that is told if the path
        leads elsewhere at the end."""
        self.at_all_calls("moved folder", (FOR_GOOD,))

    def test_names_taken(self) -> None:
        """At each name that is used lies a link of either sort to a file of root."""
        makers: tuple[Callable[[str, str], object], ...] = (os.link, os.symlink)
        for name in ("aide.db", ".aide.db.new", ".aide.db.part", "aide.db.previous"):
            for make in makers:
                put(self, "folder")
                path = os.path.join(os.path.dirname(self.path(BASELINE)), name)
                if os.path.exists(path):
                    os.remove(path)
                make(self.path("root/secret"), path)
                before = roots(self)
                done = self.call(TOOL, "--sha256", DIGEST, "new", BASELINE)
                self.assertIn(done.status, (0, 18), (make, name, done))
                self.assertEqual(roots(self), before, (make, name, done))
                self.assertEqual(self.read("root/secret"), SECRET, (make, name))

    def test_swapped_database(self) -> None:
        """NEW is exchanged while it is read: what is accepted has the digest."""
        command, ends, name = forked(self), set(), self.path("base/aide.db.new")
        calls = accept_at(command, AT_NOTES=2).error_text.split()
        for number, way in moments(calls[:40], (FOR_GOOD,)):
            fresh(self)
            other = self.write("base/other", gzip.compress(OLD + b"more\n"))
            options = {"AT_NUMBER": number, "AT_WAY": way, "AT_ONE": name, "AT_OTHER": other}
            done = accept_at(command, **options)
            ends.add(done.status)
            self.assertEqual(contents(self)[0], NEW if done.status == 0 else OLD, (number, done))
        self.assertEqual(ends, {0, 24}, "the swapped database is accepted or refused")
        fresh(self)
        self.refuses(24, None, sha256(OLD + b"more\n"))
