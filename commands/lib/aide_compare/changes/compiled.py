"""Compiled Python of signed sources: what an interpreter that is trusted makes of their bytes.

Packages bring sources, and compile them when they are set up. The code depends on nothing but the
interpreter, the bytes, the name and the time of a source, so it is made here once more. The
interpreter and the three modules that it needs lie in a private directory: beside the machine's own
one files may lie that it would obey. It gets sources on its standard input and opens no file, and a
fork compiles each: what one source leaves behind can change the code of another one.
"""
from __future__ import annotations

import os
import re
import tempfile
import time
from collections.abc import Iterable, Mapping
from contextlib import ExitStack
from typing import NamedTuple

from aide_compare.base.files import TEMPORARY, private_directory, private_file
from aide_compare.base.processes import PLAIN_ENVIRONMENT, OverTime, Taker, run
from aide_compare.changes.contents import Contents, NotMade

MAX_CODE = 64 << 20
SECONDS = 300
PROGRAM = re.compile(rb"/usr/bin/python3\.\d+").fullmatch
CACHED = re.compile(rb"(?s)(.*/)__pycache__/([^/]+)\.cpython-3(\d+)\.pyc").fullmatch
# What the interpreter is given of memory and processor time; it writes no file.
LIMITS = ("prlimit", "--as=536870912", "--cpu=120", "--fsize=0", "--core=0")
# Without the modules of a site or of a user, with no byte code from the disk.
OPTIONS = ("-I", "-S", "-B", "-X", "utf8", "-X", "pycache_prefix=/proc/self/fdinfo/none", "-c")
CHILD = """
import posix
import sys
import _frozen_importlib_external as external

# Whatever compiles a package has this name, and code tells whether somebody has it.
sys.intern("*")


def number(size):
    return int.from_bytes(sys.stdin.buffer.read(size), "little")


def answer(code):
    sys.stdout.buffer.write(len(code).to_bytes(4, "little") + code)
    sys.stdout.buffer.flush()


def compiled(path, source, time):
    code = compile(source, path, "exec", dont_inherit=True)
    return bytes(external._code_to_timestamp_pyc(code, time, len(source)))


for _ in range(number(4)):
    time, path_size, size = number(4), number(4), number(4)
    path = sys.stdin.buffer.read(path_size).decode("utf-8", "surrogateescape")
    source = sys.stdin.buffer.read(size)
    child = posix.fork()
    if child:
        if posix.waitpid(child, 0)[1]:
            answer(b"")
        continue
    try:
        answer(compiled(path, source, time))
        posix._exit(0)
    finally:
        posix._exit(1)
"""


class Source(NamedTuple):
    """A source under the name by which it is compiled."""

    path: bytes
    text: bytes
    written: int


def source_at(path: bytes, contents: Contents) -> Source:
    """A source that was taken."""
    place = contents.place(path)
    text = contents.text(path)
    assert place is not None and text is not None
    return Source(path, text, place.written)


def files_of(version: int) -> list[bytes]:
    """The files of an interpreter, 3.VERSION, that it needs to compile: itself, and three of its
    modules."""
    library = b"/usr/lib/python3.%d/encodings/" % version
    modules = [library + name for name in (b"__init__.py", b"aliases.py", b"utf_8.py")]
    return [b"/usr/bin/python3.%d" % version, *modules]


def wanted(compiled: Iterable[bytes], contents: Contents) -> dict[int, dict[bytes, bytes]]:
    """Of the paths of compiled files those whose sources were taken: for each version of the
    interpreter the sources by the compiled files."""
    found: dict[int, dict[bytes, bytes]] = {}
    for path in sorted(compiled):
        match = CACHED(path)
        if match:
            source = match[1] + match[2] + b".py"
            if contents.place(source) is not None:
                found.setdefault(int(match[3]), {})[path] = source
    return found


def install(directory: str, files: Mapping[bytes, bytes]) -> str:
    """Puts an interpreter into a private directory: its path there."""
    program = ""
    for path, text in files.items():
        place = directory + os.fsdecode(path).removeprefix("/usr")
        os.makedirs(os.path.dirname(place), exist_ok=True)
        mode = 0o600
        if PROGRAM(path):
            program, mode = place, 0o700
        with open(os.open(place, os.O_WRONLY | os.O_CREAT | os.O_EXCL, mode), "wb") as file:
            file.write(text)
    library = f"{directory}/lib/{os.path.basename(program)}"
    os.mkdir(f"{library}/lib-dynload")
    with open(f"{library}/os.py", "xb"):  # By this it knows where its library is.
        pass
    return program


class Codes:
    """Takes what the interpreter answers: the code of one source after the other, none for a source
    that it refuses."""

    def __init__(self, take: Taker) -> None:
        self.take_code = take
        self.pending = bytearray()
        self.count = 0

    def take(self, block: bytes) -> None:
        self.pending += block
        while len(self.pending) >= 4:
            size = int.from_bytes(self.pending[:4], "little")
            if size > MAX_CODE:
                raise NotMade("its interpreter makes too much of a source")
            if len(self.pending) < 4 + size:
                return
            self.take_code(bytes(self.pending[4 : 4 + size]))
            self.count += 1
            del self.pending[: 4 + size]


def frame(source: Source) -> bytes:
    """What the interpreter reads of a source."""
    numbers = (source.written & 0xFFFFFFFF, len(source.path), len(source.text))
    head = b"".join(number.to_bytes(4, "little") for number in numbers)
    return head + source.path + source.text


def compile_all(
    files: Mapping[bytes, bytes], count: int, sources: Iterable[Source], take: Taker
) -> None:
    """Gives the code of so many sources to a taker, in their order: none of a source that is
    refused. The files are those of the interpreter. Raises NotMade if it cannot be run, or takes
    too long."""
    with ExitStack() as opened:
        request = opened.enter_context(private_file())
        request.write(count.to_bytes(4, "little"))
        for source in sources:
            request.write(frame(source))
        request.seek(0)
        place = tempfile.TemporaryDirectory(prefix=TEMPORARY, dir=private_directory())
        program = install(opened.enter_context(place), files)
        words = [*LIMITS, program, *OPTIONS, CHILD]
        codes = Codes(take)
        deadline = time.monotonic() + SECONDS
        takers = {1: codes.take}
        try:
            status = run(words, takers, {0: request.fileno()}, PLAIN_ENVIRONMENT, deadline)
        except OverTime as fault:
            raise NotMade("its interpreter took too long") from fault
    if status != 0 or codes.count != count:
        raise NotMade(f"its interpreter ended with {status}")
