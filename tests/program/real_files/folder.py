"""A folder with a configuration and two databases, and the program run in it."""
from __future__ import annotations

import os
import shutil
import tempfile
from collections.abc import Sequence
from typing import Any

from tests.lib.answer import Answer, difference, run
from tests.oracle.files import wanted, wanted_lines
from tests.program.lines_program import LinesProgramTest

OLD = b"@@begin_db\n@@db_spec name attr perm size\n/b 36 40755 4096\n/c 36 100644 10\n@@end_db\n"
NEW = b"@@begin_db\n@@db_spec name attr perm size\n/a 36 100644 5\n/c 36 100600 7\n@@end_db\n"
# The databases by their files, in the order in which they are opened, and what a fault calls them.
FILES = ["old", "new", "trusted_old", "trusted_new"]
NAMES = [b"old", b"new", b"trusted old", b"trusted new"]
EMPTY = b"@@begin_db\n@@db_spec name\n@@end_db\n"
SKIPPING = b"@@begin_db\n@@db_spec name size foo\n/a 1 x\n@@end_db\n"


def database(columns: bytes, fields: bytes) -> bytes:
    """A database of one entry with a path and other fields."""
    return b"@@begin_db\n@@db_spec name %s\n/a %s\n@@end_db\n" % (columns, fields)


def names(count: int) -> bytes:
    entries = b"".join(b"/%06d\n" % number for number in range(count))
    return b"@@begin_db\n@@db_spec name\n" + entries + b"@@end_db\n"


class Folder:
    """Files for one trial after another: at a path, or for so long as it is entered."""

    def __init__(self, path: bytes = b"") -> None:
        self.path = path
        if path:
            os.makedirs(path)

    def __enter__(self) -> Folder:
        self.path = tempfile.mkdtemp(prefix="aide-").encode()
        return self

    def __exit__(self, *_: object) -> None:
        shutil.rmtree(self.path, ignore_errors=True)

    def at(self, name: str) -> bytes:
        return os.path.join(self.path, name.encode())

    def write(self, name: str, text: bytes) -> None:
        with open(self.at(name), "wb") as file:
            file.write(text)

    def pair(self, old: bytes = OLD, new: bytes = NEW, options: bytes = b"") -> None:
        """Writes two databases and a configuration that names them."""
        text = b"database_in=file:%s/old\ndatabase_new=file:%s/new\n%s"
        self.write("conf", text % (self.path, self.path, options))
        self.write("old", old)
        self.write("new", new)

    def put(self, texts: Sequence[bytes | None]) -> list[bytes]:
        """Writes the databases of a comparison, beside a trusted pair if there are four, without
        those that are None. Gives the words."""
        self.pair()
        for name, text in zip(FILES, texts):
            if text is not None:
                self.write(name, text)
            elif os.path.exists(self.at(name)):
                os.unlink(self.at(name))
        old, new = self.at("trusted_old"), self.at("trusted_new")
        trusted = [b"--trusted-old", old, b"--trusted-new", new]
        return self.words(*trusted) if len(texts) > 2 else self.words()

    def words(self, *more: bytes) -> list[bytes]:
        return [b"-E", b"-c", self.at("conf")] + list(more)

    def wanted(self, *more: bytes) -> Answer:
        return wanted(self.words(*more))

    def run(self, program: bytes, *more: bytes, **streams: Any) -> Answer:
        return run(program, self.words(*more), **streams)


class FolderTest(LinesProgramTest):
    """A test over one folder, in which each trial takes the place of the last."""

    def setUp(self) -> None:
        super().setUp()
        self.folder = Folder().__enter__()
        self.addCleanup(self.folder.__exit__)

    def agree(self, label: str, words: list[bytes], answer: Answer) -> None:
        self.add("the definitions at " + label, difference(wanted(words), answer))

    def check_words(self, label: str, words: list[bytes], want: Answer) -> None:
        """The program and the definitions answer what is wanted, and lines end as a report does."""
        answer = run(self.program, words)
        self.check(label, answer, want)
        self.agree(label, words, want)
        self.add(f"{label}, by lines", self.lines_faults(words, wanted_lines(words), answer))

    def check_status(self, label: str, words: list[bytes], status: int) -> None:
        """The program answers as the definitions do, which end with this status."""
        want = wanted(words)
        self.holds("the definitions at " + label, want.status == status, want)
        self.check(label, run(self.program, words), want)
