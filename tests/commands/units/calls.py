"""Tests of modules of the commands: what a call returns, a Fault as its status and its text."""
from __future__ import annotations

import os
from collections.abc import Callable, Sequence
from contextlib import suppress
from typing import Any
from unittest import mock

from tests.lib.program_test import ScratchTest

from aide_compare.base import parser
from aide_compare.base.ending import Done, Fault, fault_of
from aide_compare.commands import front

OTHER = 65534


def outcome(work: Callable[..., Any], *given: Any, **more: Any) -> Any:
    try:
        return work(*given, **more)
    except Fault as fault:
        return int(fault.status), fault.text


def misused(scratch: ScratchTest, tool: str, *words: str) -> Any:
    """The status and the text of words that a command refuses before it does anything."""
    with mock.patch.object(parser, "DIRECTORY", scratch.path("etc")):
        return outcome(front.main, [*tool.split(" ")[1:], *words])


def helped(*words: str, main: Callable[[Sequence[str]], object] = front.main) -> bytes:
    """What is printed for words that ask for the help of a command."""
    with mock.patch.object(parser, "tell") as told, suppress(Done):
        main(words)
    return f"{told.call_args[0][0]}\n".encode()


def in_child(work: Callable[[], bytes]) -> bytes:
    """What some work gives in a child; a Fault of it is one here."""
    reading, writing = os.pipe()
    child = os.fork()
    if child == 0:
        try:
            answer = b"=" + work()
        except BaseException as error:
            fault = fault_of(error)
            answer = b"%d %s" % (fault.status, fault.text.encode("utf-8", "backslashreplace"))
        os.write(writing, answer)
        os._exit(0)
    os.close(writing)
    with open(reading, "rb") as file:
        answer = file.read()
    os.waitpid(child, 0)
    if answer.startswith(b"="):
        return answer[1:]
    status, _, text = answer.decode().partition(" ")
    raise Fault(int(status), text)


class ModuleTest(ScratchTest):
    """A test of some modules, with a directory of its own."""

    def expect(self, label: str, got: object, want: object) -> None:
        with self.subTest(label):
            self.assertEqual(got, want)

    def gives(self, want: object, work: Callable[..., Any], *given: Any) -> None:
        self.expect(f"{work.__name__} of {given!r:.300}", outcome(work, *given), want)

    def fails(self, status: int, part: str, work: Callable[..., Any], *given: Any) -> None:
        """A call ends with a Fault of this status, whose text has this part."""
        got = outcome(work, *given)
        with self.subTest(f"{work.__name__} of {given!r:.300}"):
            self.assertIsInstance(got, tuple)
            self.assertEqual(got[0], status, got)
            self.assertIn(part, got[1])


class PlacesTest(ModuleTest):
    """A test with directories in which others can write, or nobody else."""

    def setUp(self) -> None:
        super().setUp()
        for name in ("own", "own/inner", "his", "his/roots", "sticky", "sticky/own", "group"):
            os.mkdir(self.path(name))
        os.chmod(self.path("sticky"), 0o1777)
        os.chmod(self.path("group"), 0o775)
        self.write("own/file", b"text")
        self.write("sticky/file", b"text")
        os.mkfifo(self.path("own/fifo"))
        os.symlink("file", self.path("own/short"))
        if os.getuid() == 0:
            os.chown(self.path("his"), OTHER, OTHER)
