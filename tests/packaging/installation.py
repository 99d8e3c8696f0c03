"""A copy of what is installed from, a folder to install to, and the counts."""
from __future__ import annotations

import hashlib
import os
import shutil
import stat
import subprocess
from typing import Any

from tests.commands.sandbox import compiled_commands
from tests.lib.answer import Answer, run
from tests.lib.program_test import ScratchTest
from tests.lib.programs import find_program, lines_program_of
from tests.lib.scratch import TOP, Scratch, read

PARTS = [
    *(
        "commands/bin commands/lib commands/share contrib debian docs examples/small_tree man".split()
    ),
    *("packaging Makefile README.md CHANGELOG.md SECURITY.md VERSION".split()),
]
PROGRAMS = ("libexec/aide-compare/aide", "libexec/aide-compare/aide_lines")
NOBODY = 65534
# What the scripts may need: the base system and make, without a compiler, git or rt.
NEEDED = """[ cat cp cut date dirname env find grep gzip head id ln ls make mkdir mv printf python3 rm
rmdir sed sh sort tail tar touch tr""".split()


class Sources(Scratch):
    """A directory with copies of what is installed."""

    def copied_programs(self, program: str, folder: str, name: str) -> str:
        """The path of a copy of the program in a new folder, where that of lines is too."""
        os.mkdir(self.path(folder))
        lines = name.replace("aide", "aide_lines")
        for source, target in ((program, name), (lines_program_of(program), lines)):
            shutil.copy(source, self.path(folder, target))
            os.chmod(self.path(folder, target), 0o755)  # Also if it was built with a umask of 077.
        return self.path(folder, name)

    def make_newer(self, program: str) -> str:
        """A program that stands for the build for newer processors, with the record of a proof."""
        data = self.read(program) + bytes(1)
        digest = hashlib.sha256(data).hexdigest()
        self.write(program + "-v3.proved", f"sha256={digest}\nkit=a kit\n")
        return self.write(program + "-v3", data, 0o755)

    def copy(self, name: str, *without: str) -> str:
        """A copy of the parts of the repository that are installed or that install; some of them
        are empty. The commands have byte code: each installation loads them for the completions."""
        target = self.path(name)
        for part in PARTS:
            source, copied = os.path.join(TOP, part), os.path.join(target, part)
            os.makedirs(os.path.dirname(copied), exist_ok=True)
            if part in without:
                os.mkdir(copied)
            elif part.startswith("commands/"):
                shutil.copytree(compiled_commands() + part[len("commands") :], copied)
            elif os.path.isdir(source):
                shutil.copytree(source, copied, ignore=shutil.ignore_patterns("__pycache__"))
            else:
                shutil.copy2(source, copied)
        subprocess.run(["chmod", "-R", "a+rX", target], check=True)
        return target

    def small_copy(self, name: str, *without: str) -> str:
        """A copy without the files of some parts and without completions, to install it often."""
        source = self.copy(name, *without)
        self.write(name + "/packaging/completions", "#!/bin/sh\n", 0o755)
        return source

    def make_plain_path(self) -> str:
        """A folder for PATH with few programs: rt is not found through it."""
        folder = self.path("programs")
        os.makedirs(folder)
        for name in filter(shutil.which, NEEDED):
            os.symlink(str(shutil.which(name)), os.path.join(folder, name))
        return folder


class InstallTest(Sources, ScratchTest):
    """Each test installs below a directory of its own, and only reads what its class has."""

    shared, newer = Sources(), [""]
    program = source = small = version = plain_path = ""

    @classmethod
    def setUpClass(cls) -> None:
        cls.shared.make()
        cls.addClassCleanup(cls.shared.remove)
        cls.program = cls.shared.copied_programs(find_program(), "built programs", "aide")
        programs = (cls.program, lines_program_of(cls.program))
        cls.newer = [cls.shared.make_newer(one) for one in programs]
        cls.source = cls.shared.copy("source")
        cls.small = cls.shared.small_copy("small", "commands/lib", "docs")
        cls.version = read("VERSION").strip()
        cls.plain_path = cls.shared.make_plain_path()

    def run_words(self, words: list[str], **more: Any) -> Answer:
        return run(words[0], words[1:], **more)

    def install(self, *words: str, source: str = "", shell: Any = (), **more: Any) -> Answer:
        """Runs packaging/install of a copy, in a folder that is not the repository."""
        script = os.path.join(source or self.source, "packaging", "install")
        return self.run_words([*shell, script, *words], cwd=self.root, **more)

    def first(self, *names: str) -> str:
        """A path of what is installed below the usual prefix, once for the tests of a class."""
        if not os.path.exists(self.shared.path("first")):
            self.installed(self.shared.path("first"))
        return self.shared.path("first", "usr", "local", *names)

    def installed(self, name: str, *words: str) -> dict[str, Any]:
        """Installs the program below a new folder, and gives what lies there."""
        folder = self.path(name)
        done = self.install("--destdir", folder, "--program", self.program, *words)
        self.assertEqual((done.status, done.error_text), (0, ""), done)
        return tree(folder)

    def refuses(self, label: str, folder: str, done: Answer, *said: str) -> None:
        """It ended with 1 and these words, and nothing was written."""
        self.assertEqual(done.status, 1, (label, done))
        for text in said:
            self.assertIn(text, done.error_text, label)
        self.assertFalse(os.path.exists(folder), label)

    def plain(self) -> dict[str, str]:
        return dict(os.environ, PATH=self.plain_path)


def tree(folder: str) -> dict[str, Any]:
    """Every path below a folder: its permissions, with its bytes if it is a file."""
    found: dict[str, Any] = {}
    for above, folders, files in os.walk(folder):
        for name in folders + files:
            path = os.path.join(above, name)
            mode = stat.S_IMODE(os.lstat(path).st_mode)
            if os.path.isdir(path):
                found[os.path.relpath(path, folder)] = (mode, None)
            else:
                with open(path, "rb") as file:
                    found[os.path.relpath(path, folder)] = (mode, file.read())
    return found


def files(found: dict[str, Any]) -> dict[str, Any]:
    return {path: kept for path, kept in found.items() if kept[1] is not None}


def texts(found: dict[str, Any]) -> dict[str, str]:
    kept = sorted(files(found).items())
    return {path: data.decode(errors="replace") for path, (_, data) in kept if b"\0" not in data}


def rights() -> dict[str, Any]:
    """For a child process that is to have no more rights than nobody."""
    return {"preexec_fn": as_nobody} if os.getuid() == 0 else {}


def as_nobody() -> None:
    os.setgroups([])
    os.setgid(NOBODY)
    os.setuid(NOBODY)
