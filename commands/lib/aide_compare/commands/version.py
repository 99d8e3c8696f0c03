"""aide-compare version: which programs the commands run, by their SHA-256, and whether they are
known to be proved builds."""
from __future__ import annotations

import hashlib
import os
from collections.abc import Iterator, Sequence
from contextlib import suppress

from aide_compare import VERSION
from aide_compare.base.ending import Fault, Status, tell
from aide_compare.base.escapes import shown
from aide_compare.base.files import read_file
from aide_compare.base.options import Request
from aide_compare.base.parser import Help, read
from aide_compare.base.program import (
    LINES_PROGRAM,
    NEWER,
    PROGRAM,
    find_installed,
    installed_builds,
    path_below_prefix,
)

MAX_PROGRAM = 1 << 28
MAX_RECORD = 1 << 16
# What packaging/install writes beside a program: its SHA-256, the kit that built it, and how.
RECORD = ".build"
UNKNOWN = "not known"
NO_RECORD = "not known: there is no record of how it was built"
OTHER_PROGRAM = "not known: it is not the program that was installed"
HELP = Help(
    name="aide-compare version",
    description="""\
Prints the version, and of both programs that the commands run the path, the SHA-256, the kit
that built it, and whether it is a proved build. The first one may not be installed.""",
    epilog="Status: 0 printed; 15 bad arguments; 18 a program cannot be read.",
)


def record_of(program: str) -> dict[str, str]:
    """What the record beside a program says; nothing if there is none that can be read."""
    record = {}
    with suppress(Fault):
        text = read_file(program + RECORD, MAX_RECORD, "the record ").decode("utf-8", "replace")
        for line in text.splitlines():
            name, _, value = line.partition("=")
            record[name] = value
    return record


def build_lines(title: str, program: str) -> Iterator[str]:
    """What there is to say of a build of a program."""
    record = record_of(program)
    digest = hashlib.sha256(read_file(program, MAX_PROGRAM, "the program ")).hexdigest()
    kit = record.get("kit") or UNKNOWN
    proved = record.get("proved") or NO_RECORD
    if record and record.get("sha256") != digest:
        kit = UNKNOWN
        proved = OTHER_PROGRAM
    yield f"{title}: {shown(program)}"
    yield f"SHA-256: {digest}"
    yield f"kit: {shown(kit, 200)}"
    yield f"a proved build: {shown(proved, 200)}"


def program_lines(title: str, name: str) -> Iterator[str]:
    """What there is to say of each build of a program. Of two, the one is marked that runs on this
    machine. Most commands need only the program of lines, and the other one may be missing."""
    if name == PROGRAM and not os.path.lexists(path_below_prefix(name)):
        yield f"{title}: not installed"
        return
    builds = installed_builds(name)
    running = find_installed(name)
    for build in builds:
        full_title = title
        if build.endswith(NEWER):
            full_title += " for newer processors"
        yield from build_lines(full_title, build)
        if len(builds) > 1:
            answer = "yes" if build == running else "no"
            yield f"run on this machine: {answer}"


def main(arguments: Sequence[str]) -> int:
    read(Request, arguments, HELP)
    tell(
        f"aide-compare {VERSION}",
        *program_lines("program", PROGRAM),
        *program_lines("program of lines", LINES_PROGRAM),
    )
    return Status.OK
