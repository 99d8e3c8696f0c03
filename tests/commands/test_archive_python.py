"""Compiled Python beside signed packages: what Debian's own compiler makes of their sources is
expected, and nothing else is."""
from __future__ import annotations

import glob
import os
import subprocess
from typing import Any

from tests.commands.signed_archive import ONE, ArchiveCase, Built
from tests.lib.answer import Answer

LIBRARY = b"/usr/lib/python3/dist-packages/"
TOOL = LIBRARY + b"tool.py"
LINK = LIBRARY + b"link.py"
MORE = LIBRARY + b"more/__init__.py"
# A star import leaves a string behind that the code of a later source would show.
SOURCES = {
    TOOL: b"from os.path import *\nNAME = 'tool'\n\n\ndef main(*rest):\n    return NAME, rest\n",
    MORE: b"LETTER = '*'\nLETTERS = {'a', 'b', 'c'}\n",
}
WRITTEN = 1700000000


def compiled_path(path: bytes, tag: str) -> bytes:
    """Where the interpreter puts what it makes of a source."""
    directory, name = os.path.split(path)
    return directory + b"/__pycache__/" + name[: -len(".py")] + f".{tag}.pyc".encode()


class CompiledPython(ArchiveCase):
    """A package with sources was upgraded, and its scripts have compiled them."""

    def setUp(self) -> None:
        super().setUp()
        programs = sorted(glob.glob("/usr/bin/python3.1[1-9]"))
        self.needs("prlimit", *(os.path.basename(path) for path in programs[-1:] or ["python3.11"]))
        self.program = programs[-1]
        self.tag = "cpython-3" + self.program.rpartition(".")[2]
        self.library = f"/usr/lib/{os.path.basename(self.program)}/encodings/"
        for night, text in ((self.place.old, ONE), (self.place.new, None)):
            for path, source in {**SOURCES, LINK: SOURCES[TOOL]}.items():
                night.directory(os.path.dirname(path)).directory(
                    os.path.dirname(path) + b"/__pycache__"
                )
                night.file(compiled_path(path, self.tag), text or self.compiled(path, source))
        self.built = Built("python3-tool", "1")
        for path, source in SOURCES.items():
            self.built.file(path, source)
        self.built.link(LINK, b"tool.py")
        self.built.written = WRITTEN
        self.place.listed("python3-tool", "1")

    def compiled(self, path: bytes, source: bytes, mode: str = "TIMESTAMP") -> bytes:
        """What the scripts of packages make of a source of this name."""
        place = os.fsdecode(self.write("source.py", source))
        os.utime(place, (WRITTEN, WRITTEN))
        code = self.path("code.pyc")
        script = "import py_compile, sys; py_compile.compile(*sys.argv[1:4],"
        script += f" invalidation_mode=py_compile.PycInvalidationMode.{mode})"
        words = [self.program, "-E", "-S", "-c", script, place, code, os.fsdecode(path)]
        subprocess.run(words, check=True)
        with open(code, "rb") as file:
            return file.read()

    def own_interpreter(self) -> None:
        """Both nights have the interpreter of this machine."""
        for name in self.needed():
            for night in (self.place.old, self.place.new):
                with open(name, "rb") as file:
                    night.file(name.encode(), file.read())

    def needed(self) -> list[str]:
        names = ("__init__.py", "aliases.py", "utf_8.py")
        return [self.program, *(self.library + name for name in names)]

    def answer(self) -> Answer:
        """What the command makes of the package."""
        self.place.package(self.built)
        self.place.sign()
        answer = self.place.ask()
        self.expect("archive", answer, 0)
        return answer

    def expect_all(self, want: str) -> None:
        """What accounts for all compiled files."""
        paths = [compiled_path(path, self.tag) for path in (*SOURCES, LINK)]
        self.place.expect(self.answer(), want, *paths)

    def test_interpreter_of_both_databases(self) -> None:
        self.own_interpreter()
        self.expect_all("trusted")

    def test_signed_interpreter(self) -> None:
        minimal = Built("python-minimal", "1")
        for name in self.needed():
            with open(name, "rb") as file:
                minimal.file(name.encode(), file.read(), 0o755)
        self.place.listed("python-minimal", "1")
        self.place.package(minimal)
        self.expect_all("trusted")

    def test_interpreter_that_one_database_has_otherwise(self) -> None:
        self.own_interpreter()
        for name in self.needed():
            for night in (self.place.old, self.place.new):
                was = night.entries[name.encode()]
                night.file(name.encode(), ONE)
                with self.subTest(name=name, is_old=night is self.place.old):
                    self.expect_all("open")
                night.entries[name.encode()] = was

    def test_new_module_comes_with_its_directory(self) -> None:
        self.own_interpreter()
        compiled = compiled_path(MORE, self.tag)
        for path in (compiled, os.path.dirname(compiled), os.path.dirname(MORE)):
            del self.place.old.entries[path]
        self.place.expect(self.answer(), "trusted", compiled, os.path.dirname(compiled))

    def test_other_bytes_stay_open(self) -> None:
        """Whatever else lies there is none of what the compiler of packages makes."""
        self.own_interpreter()
        source = SOURCES[TOOL]
        right = self.compiled(TOOL, source)
        odd = compiled_path(LIBRARY + b"unsigned.py", self.tag)
        paths = {
            "one byte": (compiled_path(TOOL, self.tag), right[:-1] + b"x"),
            "of another source": (
                compiled_path(TOOL, self.tag),
                self.compiled(TOOL, source + b" "),
            ),
            "of another name": (compiled_path(TOOL, self.tag), self.compiled(MORE, source)),
            "checked by a hash": (
                compiled_path(TOOL, self.tag),
                self.compiled(TOOL, source, "UNCHECKED_HASH"),
            ),
            "without a source": (odd, right),
            "for another interpreter": (compiled_path(TOOL, "cpython-399"), right),
            "in the old place": (TOOL + b"c", right),
        }
        answer = self.answer()
        for what, (path, content) in paths.items():
            with self.subTest(what):
                self.place.new.file(path, content)
                self.place.expect(answer, "open", path)

    def test_rights_are_those_of_the_old_entry(self) -> None:
        self.own_interpreter()
        path = compiled_path(TOOL, self.tag)
        answer = self.answer()
        rights: list[dict[str, Any]] = [{"perm": "100666"}, {"perm": "104644"}, {"uid": 33}]
        for more in rights:
            with self.subTest(more=more):
                self.place.new.file(path, self.compiled(TOOL, SOURCES[TOOL]), **more)
                self.place.expect(answer, "open", path)

    def test_source_that_cannot_be_compiled_stays_open_alone(self) -> None:
        """The compiler lives on, whatever a source does to one of its forks."""
        self.own_interpreter()
        for number, text in enumerate((b"-" * 200000 + b"1", b"a\0b", b"(", b"2**10**9 # ok", b"")):
            path = LIBRARY + b"a%d.py" % number
            self.built.file(path, text)
            self.place.new.file(compiled_path(path, self.tag), b"planted")
        answer = self.answer()
        self.place.expect(answer, "open", compiled_path(LIBRARY + b"a0.py", self.tag))
        self.place.expect(answer, "trusted", compiled_path(TOOL, self.tag))
