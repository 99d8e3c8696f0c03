"""Libraries that are loaded before the C library, built from C that includes no header of it."""
from __future__ import annotations

import os
import select
import shutil
import signal
import struct
from typing import Any

from tests.lib.answer import TIME_LIMIT, Answer, run
from tests.lib.program_test import ProgramTest, ScratchTest
from tools.source.checker import kit

FOLDER = os.path.join(os.path.dirname(os.path.abspath(__file__)), "..", "program")
NAMES = ["cc", "gcc", "clang"]
FLAGS = ["-O1", "-shared", "-fPIC", "-nostdlib"]


def compiler() -> list[str]:
    """What builds a library: the machine's compiler, or the toolchain's with its linker."""
    for name in NAMES:
        path = shutil.which(name)
        if path:
            return [path]
    tools = os.path.join(kit(), "toolchain", "bin")
    return [os.path.join(tools, "clang"), "--ld-path=" + os.path.join(tools, "ld.lld")]


def built(name: str, folder: str) -> str:
    """Builds a library of the trials: its path."""
    library = os.path.join(folder, name + ".so")
    program, *words = compiler()
    answer = run(program, [*words, *FLAGS, "-o", library, os.path.join(FOLDER, name)])
    if answer.status:
        raise AssertionError(f"{name} was not built: {answer}")
    return library


class PreloadTest(ScratchTest, ProgramTest):
    source = ""

    def setUp(self) -> None:
        super().setUp()
        self.directory = os.fsencode(self.root)
        self.library = os.fsencode(built(self.source, self.root))


def ended(child: int) -> int:
    """The status of a child, which is killed if it hangs."""
    file = os.pidfd_open(child)
    if not select.select([file], [], [], TIME_LIMIT)[0]:
        os.kill(child, signal.SIGKILL)
    os.close(file)
    return os.waitstatus_to_exitcode(os.waitpid(child, 0)[1])


def run_with(
    library: bytes,
    program: bytes,
    words: list[bytes],
    form: struct.Struct,
    variable: str,
    **settings: int,
) -> tuple[Answer, list[tuple[Any, ...]]]:
    """What a program answers with a library loaded before it, and the notes of the library in a
    form.

    The library is told the settings and, by a variable, the descriptor to which it writes its
    notes. All three are files in memory, and the start is the system's own: both take less time
    than pipes and `subprocess`.
    """
    files = [os.memfd_create(name) for name in ("output", "errors", "notes")]
    streams: list[tuple[Any, ...]] = [(os.POSIX_SPAWN_OPEN, 0, os.devnull, os.O_RDONLY, 0)]
    streams += [(os.POSIX_SPAWN_DUP2, file, number) for number, file in enumerate(files, 1)]
    texts = {"LD_PRELOAD": os.fsdecode(library), variable: "3"}
    texts.update({name: str(value) for name, value in settings.items()})
    done = ended(os.posix_spawn(program, [program, *words], texts, file_actions=streams))
    output, errors, notes = (os.pread(file, os.fstat(file).st_size, 0) for file in files)
    for file in files:
        os.close(file)
    whole = len(notes) // form.size * form.size
    return Answer(output, errors, done), list(form.iter_unpack(notes[:whole]))
