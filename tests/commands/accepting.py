"""The folder in which aide-compare accept is tried, and the library that acts at a call."""
from __future__ import annotations

import gzip
import os
import shutil
from typing import Any, Optional

from tests.lib import preload
from tests.lib.answer import Answer

from .forked import Forked
from .sandbox import CommandTest, NEW, OLD, Texts, sha256

TOOL = "aide-compare accept"
BASE = "base/"
FILES = ("base/aide.db.new", "base/aide.db")
OLDER = OLD.replace(b"/d 36", b"/c1 36")
DIGEST = sha256(NEW)
# What the three files have when NEW was accepted.
DONE = (NEW, OLD, NEW, 3)
Contents = tuple[Optional[bytes], Optional[bytes], Optional[bytes], int]


def fresh(sandbox: CommandTest, owner: int | None = None) -> None:
    """The databases before anything is accepted. The folder is an owner's, the baseline root's."""
    shutil.rmtree(sandbox.path("base"), ignore_errors=True)
    sandbox.write("base/aide.db", gzip.compress(OLD), 0o600)
    sandbox.write("base/aide.db.previous", OLDER)
    sandbox.write("base/aide.db.new", gzip.compress(NEW, mtime=0), 0o600)
    os.chmod(sandbox.path("base"), 0o755)
    if owner is not None:
        os.chown(sandbox.path("base"), owner, 0)
        os.chown(sandbox.path("base/aide.db.new"), owner, owner)


def contents(sandbox: CommandTest) -> Contents:
    """What the three files have unpacked, and how many files are in their folder."""

    def text(name: str) -> bytes | None:
        if not os.path.isfile(sandbox.path(BASE + name)):
            return None
        found: bytes = sandbox.read(BASE + name)
        return gzip.decompress(found) if found[:2] == b"\x1f\x8b" else found

    count = len(os.listdir(sandbox.path("base")))
    return text("aide.db"), text("aide.db.previous"), text("aide.db.new"), count


def accept(sandbox: CommandTest, digest: str, *words: str, **more: Any) -> Answer:
    return sandbox.call(TOOL, "--sha256", digest, *words, *FILES, **more)


class AcceptingTest(CommandTest):
    """A test of aide-compare accept, with the databases before something is accepted."""

    def setUp(self) -> None:
        super().setUp()
        fresh(self)

    def put(self, old: bytes, new: bytes) -> None:
        fresh(self)
        self.write("base/aide.db", old, 0o600)
        self.write("base/aide.db.new", new, 0o600)

    def accepts(self, told: Texts, digest: str = DIGEST, *words: str, **more: Any) -> None:
        """The new database with this digest is accepted, and this is printed."""
        self.expect(f"{digest!r} {words}", accept(self, digest, *words, **more), 0, told, b"")

    def refuses(
        self, status: int, told: Texts, digest: str = DIGEST, *words: str, **more: Any
    ) -> None:
        """It is refused with this error, and nothing moves."""
        before = contents(self)
        self.expect(f"{digest!r} {words}", accept(self, digest, *words, **more), status, b"", told)
        self.assertEqual(contents(self), before, (digest, words))


def forked(sandbox: CommandTest) -> Forked:
    """The command with the library that acts at a call."""
    return Forked(sandbox, TOOL, LD_PRELOAD=preload.built("at_call.c", sandbox.path("stubs")))


def accept_at(command: Forked, **settings: object) -> Answer:
    return command.call("--sha256", DIGEST, *FILES, **settings)
