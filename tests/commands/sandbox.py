"""A directory of its own in which the commands are tried, and the databases of these tests."""
from __future__ import annotations

import atexit
import contextlib
import functools
import gzip
import hashlib
import json
import marshal
import os
import runpy
import shutil
import signal
import subprocess
import sys
import tempfile
import traceback
import warnings
from collections.abc import Iterator
from typing import Any, NoReturn, Optional, Union
from unittest import mock

from tests.lib.answer import Answer
from tests.lib.apart import has_own_mounts
from tests.lib.copies import COMPILED, copy_commands
from tests.lib.program_test import ScratchTest
from tests.lib.programs import find_program, lines_program_of
from tests.lib.scratch import read
from tests.lib.terminal import Terminal

# Only for a tool that hangs: on a machine with much other work a run may take minutes.
TIME_LIMIT = 300
NOBODY = 65534
# The Python of the machine, which the commands name.
PYTHON = "/usr/bin/python3"

# What a child does before it is the tool: it gives up root's rights, has a umask or small files.
UMASK = "os.umask(0o%o)"
SMALL_FILES = "resource.setrlimit(resource.RLIMIT_FSIZE, (%d, %d))"
BECOME = """import os, resource, signal, sys
signal.signal(signal.SIGPIPE, signal.SIG_DFL)
%s
os.execvp(sys.argv[1], sys.argv[1:])"""

HERE = os.path.dirname(os.path.abspath(__file__))
MAX_DESCRIPTORS = 1 << 16
AS_NOBODY = "os.setgroups([]); os.setgid(%d); os.setuid(%d)" % (NOBODY, NOBODY)


def after(before: str | None, command: list[str]) -> list[str]:
    """A command that does something first. (`preexec_fn` is not safe in a process with threads.)"""
    return [sys.executable, "-IS", "-c", BECOME % before] + command if before else command


HEAD = b"@@begin_db\n@@db_spec name attr perm size\n"
END = b"@@end_db\n"
OLD = HEAD + b"/b 36 40755 4096\n/c 36 100644 10\n/d 36 100644 1\n" + END
NEW = HEAD + b"/a 36 100644 5\n/c 36 100600 7\n/d 36 100644 2\n" + END
DIFFER = [b"aide-compare: old database: ", b"aide-compare: new database: "]
COUNTS = {"added": "1", "removed": "1", "changed": "2"}

# A text that an answer has, several of them, or any.
Texts = Optional[Union[bytes, "list[bytes]"]]


def sha256(text: bytes) -> str:
    return hashlib.sha256(text).hexdigest()


@functools.lru_cache(maxsize=None)
def compiled_commands() -> str:
    """The commands with their byte code: the gate's copy, or one that this process makes once."""
    if os.environ.get(COMPILED):
        return os.environ[COMPILED]
    directory = tempfile.mkdtemp(prefix="aide-compare-commands-")
    atexit.register(shutil.rmtree, directory, True)
    copy_commands(directory)
    return directory


class CommandTest(ScratchTest):
    """A test of the commands, with a directory of its own: the commands beside the program, a
    directory for what is unpacked, and the databases OLD and NEW in two forms."""

    def setUp(self) -> None:
        program = find_program()
        super().setUp()
        self.room = self.path("room")
        for name in ("stubs", "room", "empty"):
            os.mkdir(self.path(name))
        os.chmod(self.room, 0o1777)
        os.makedirs(self.path("libexec/aide-compare"))
        self.program = shutil.copy(program, self.path("libexec/aide-compare/aide"))
        lines = self.path("libexec/aide-compare/aide_lines")
        self.lines_program = shutil.copy(lines_program_of(program), lines)
        for path in (self.program, self.lines_program):
            os.chmod(path, 0o755)
        for name in ("bin", "lib", "share"):
            source = os.path.join(compiled_commands(), name)
            shutil.copytree(source, self.path(name), copy_function=os.link)
        os.rename(self.path("bin/aide-compare"), self.path("front"))
        self.write("bin/aide-compare", read("tests/commands/front.py"), 0o755)
        os.symlink("aide-compare", self.path("bin/check_aide_compare"))
        self.replaced: dict[str, dict[str, object]] = {}
        self.patches: dict[str, Any] = {}
        # Packages' records and the administrator's directory are the test's, never this machine's.
        self.set_names("changes.recorded", DPKG=self.path("dpkg"))
        self.set_names("base.parser", DIRECTORY=self.path("etc"))
        for name, text in (("old", OLD), ("new", NEW)):
            self.write(name + ".db", text)
            self.write(name + ".db.gz", gzip.compress(text))

    def set_names(self, module: str, **values: object) -> None:
        """Gives names of a module, which have to be there, other values in the test's commands."""
        self.replaced.setdefault(f"aide_compare.{module}", {}).update(values)
        self.write("replaced", marshal.dumps(self.replaced))

    def patch(self, target: str, new: object) -> None:
        """Puts an object in the place of one, such as "show.page.heading_of": from then on the
        test's commands are children of this process. What it needs of them it imports when it is
        called."""
        self.patches[f"aide_compare.{target}"] = new

    def as_child(
        self, words: list[str], environment: dict[str, str], before: str | None = None
    ) -> dict[str, Any]:
        """What subprocess is told beside the words of a command with patches."""
        if not self.patches:
            return {}
        return {"preexec_fn": functools.partial(self.become, words, environment, before)}

    def become(self, words: list[str], environment: dict[str, str], before: str | None) -> NoReturn:
        """This process, a child that has its streams, becomes a command, with the patches."""
        try:
            warnings.simplefilter("ignore")  # As in a command.
            os.closerange(3, MAX_DESCRIPTORS)
            os.environ.clear()
            os.environ.update(environment)
            for number in (signal.SIGPIPE, signal.SIGXFSZ):
                signal.signal(number, signal.SIG_IGN)
            for name in [name for name in sys.modules if name.partition(".")[0] == "aide_compare"]:
                del sys.modules[name]
            sys.argv = words
            sys.path.insert(0, self.path("lib"))
            front = runpy.run_path(words[0], run_name="front")
            for target, new in self.patches.items():
                mock.patch(target, new).start()
            exec(before or "", {"os": os})
            front["become_command"]()
        except BaseException:
            traceback.print_exc()
        finally:
            os._exit(99)

    @contextlib.contextmanager
    def mounted(self, name: str, *words: str) -> Iterator[bool]:
        """What `mount` puts on a file or folder with these words, for a while. Yields whether it is
        there: it is mounted only where nobody else sees it."""
        path = self.path(name)
        is_there = (
            shutil.which("mount") is not None
            and has_own_mounts()
            and subprocess.call(["mount", *words, path], stderr=subprocess.DEVNULL) == 0
        )
        try:
            yield is_there
        finally:
            if is_there:
                subprocess.call(["umount", path])

    def command(self, tool: str, *words: str) -> list[str]:
        """The words of a tool, such as aide-compare json, and those that follow."""
        name, *subcommand = tool.split(" ")
        return [self.path("bin/" + name), *subcommand, *words]

    def environment(self, **more: str) -> dict[str, str]:
        path = self.path("stubs") + ":" + os.environ["PATH"]
        return {**os.environ, "TMPDIR": self.room, "PATH": path, **more}

    def start(
        self,
        tool: str,
        *words: str,
        environment: dict[str, str] | None = None,
        before: str | None = None,
        **more: Any,
    ) -> subprocess.Popen[bytes]:
        """Starts a tool in this folder, without waiting for it."""
        pipes = {"stdout": subprocess.PIPE, "stderr": subprocess.PIPE}
        streams: dict[str, Any] = {"stdin": subprocess.DEVNULL, **pipes, **more}
        given = self.environment(**(environment or {}))
        command = self.command(tool, *words)
        streams.update(self.as_child(command, given, before))
        if not self.patches:
            command = after(before, command)
        return subprocess.Popen(command, cwd=self.root, env=given, **streams)

    def call(
        self,
        tool: str,
        *words: str,
        text: bytes | None = None,
        environment: dict[str, str] | None = None,
        limit: float = TIME_LIMIT,
        **more: Any,
    ) -> Answer:
        """What a tool answers in this folder, in so many seconds. `text` is its standard input."""
        if text is not None:
            more["stdin"] = subprocess.PIPE
        process = self.start(tool, *words, environment=environment, **more)
        try:
            output, errors = process.communicate(text, timeout=limit)
        except subprocess.TimeoutExpired:
            process.kill()
            output, errors = process.communicate()
            errors = (errors or b"") + b"\nit did not end\n"
        return Answer(output or b"", errors or b"", process.returncode)

    def terminal(
        self, tool: str, *words: str, environment: dict[str, str] | None = None, **streams: Any
    ) -> Terminal:
        """A tool in this folder on a terminal."""
        given = self.environment(**{"TERM": "xterm", **(environment or {})})
        command = self.command(tool, *words)
        streams.update(self.as_child(command, given))
        return Terminal(command, cwd=self.root, env=given, **streams)

    def leftovers(self) -> list[str]:
        return os.listdir(self.room)

    def expect(
        self, label: str, answer: Answer, status: int, output: Texts = None, errors: Texts = None
    ) -> None:
        """An answer has a status, these texts where they are given (a list: each is in it), and
        leaves nothing behind."""
        with self.subTest(label):
            self.assertEqual(answer.status, status, answer)
            for text, want in ((answer.output, output), (answer.errors, errors)):
                if want == b"":
                    self.assertEqual(text, b"", answer)
                for part in [want] if isinstance(want, bytes) else want or []:
                    self.assertIn(part, text, answer)
            self.assertEqual(self.leftovers(), [])

    def answered(
        self, status: int, output: Texts, errors: Texts, tool: str, *words: str, **more: Any
    ) -> Answer:
        """A tool answers these words so, as `expect` has it."""
        answer: Answer = self.call(tool, *words, **more)
        self.expect(f"{tool} {words}", answer, status, output, errors)
        return answer

    def refused(
        self, status: int, errors: Texts, tool: str, *words: str, state: str = "", **more: Any
    ) -> Answer:
        """A tool prints nothing and ends with this status and errors. Its state says so too."""
        options = ("--state", state) if state else ()
        answer = self.answered(status, b"", errors, tool, *options, *words, **more)
        if state:
            kept = self.state(state)
            self.assertEqual(kept.get("status"), str(status), (tool, words, kept))
            self.assertIn(kept["error"].encode(), answer.errors, (tool, words))
        return answer

    def state(self, name: str = "state") -> dict[str, str]:
        """A state file as a map of texts, those of lists with blanks, and an empty one of what is
        not known; nothing where there is no state."""
        try:
            fields = json.loads(self.read(name))
        except (FileNotFoundError, ValueError):
            return {}
        words = {key: " ".join(value) for key, value in fields.items() if isinstance(value, list)}
        unknown = {key: "" for key, value in fields.items() if value is None}
        return {key: str(value) for key, value in {**fields, **words, **unknown}.items()}
