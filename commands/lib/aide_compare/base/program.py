"""Runs the proved program: found, given its databases as descriptors, and ended when the command
ends."""
from __future__ import annotations

import os
from collections.abc import Mapping, Sequence
from contextlib import suppress
from typing import NamedTuple

from aide_compare.base.ending import DeviceFault, Status, reason
from aide_compare.base.escapes import shown
from aide_compare.base.processes import NOT_STARTED, Taker, run

# Its descriptors, beside the standard ones.
DESCRIPTORS = {"old": 3, "new": 4, "trusted_old": 6, "trusted_new": 7}
CONFIGURATION = 5
DATABASE_LINES = b"database_in=file:/proc/self/fd/3\ndatabase_new=file:/proc/self/fd/4"
MAX_ERRORS = 1 << 20
# The proved programs that write reports, and lines of JSON or what a configuration says; and the
# command with all subcommands.
PROGRAM = "libexec/aide-compare/aide"
LINES_PROGRAM = "libexec/aide-compare/aide_lines"
FRONT = "bin/aide-compare"
# This file is there if the program of lines is not proved, and is for looking only: `./compare` in
# a clone puts it there.
NOT_PROVED = "libexec/aide-compare/not-proved"
WAY_OUT = "./compare --prove proves it"
NOTICE = f"not proved yet: a program without a proof gave this answer, {WAY_OUT}"
# A program may be there a second time, built for newer processors: those with x86-64-v3, by the
# names of /proc/cpuinfo.
NEWER = "-v3"
NEEDED = frozenset("abm avx avx2 bmi1 bmi2 f16c fma movbe xsave".split())
CPUINFO = "/proc/cpuinfo"
MAX_CPUINFO = 1 << 13
# Its statuses: what differs, or why nothing was compared.
KNOWN = (*range(8), *Status)


class Answer(NamedTuple):
    """How the program ended, and its error lines."""

    status: int
    errors: bytes


class Drain:
    """Takes blocks: the first bytes, at most `limit`, go to `keep`, and all are counted."""

    def __init__(self, limit: int, keep: Taker) -> None:
        self.limit = limit
        self.keep = keep
        self.size = 0

    def take(self, block: bytes) -> None:
        self.keep(block[: max(self.limit - self.size, 0)])
        self.size += len(block)

    @property
    def is_cut(self) -> bool:
        return self.size > self.limit


def runs_newer() -> bool:
    """Whether the first processor that the system tells of runs the builds for newer ones. All
    processors of a machine do, or none. Where the system does not tell, none does."""
    with suppress(OSError), open(CPUINFO, "rb") as file:
        for line in file.read(MAX_CPUINFO).decode("ascii", "replace").splitlines():
            if line.startswith("flags"):
                return NEEDED.issubset(line.partition(":")[2].split())
    return False


def installed_builds(name: str) -> list[str]:
    """The builds of a program that are installed, the one for every processor first."""
    path = installed_path(name)
    newer = path + NEWER
    if os.path.isfile(newer) and os.access(newer, os.X_OK):
        return [path, newer]
    return [path]


def find_installed(name: str) -> str:
    """A file below the prefix of the commands: of a program, the build for newer processors where
    this machine has one."""
    builds = installed_builds(name)
    if len(builds) > 1 and runs_newer():
        return builds[-1]
    return builds[0]


def path_below_prefix(name: str) -> str:
    """Where a file is below the prefix of the commands, whose modules are in
    PREFIX/lib/aide-compare/python, or PREFIX/lib in the repository."""
    modules = os.path.dirname(os.path.dirname(os.path.realpath(__file__)))
    library = os.path.dirname(modules)
    above = ".."
    if os.path.basename(library) == "python":
        above = "../../.."
    return os.path.join(os.path.realpath(os.path.join(library, above)), name)


def is_for_looking() -> bool:
    """Whether the program is not proved. Then its answers say so, and only people read them."""
    return os.path.lexists(path_below_prefix(NOT_PROVED))


def need_proof(what: str) -> None:
    """Refuses what takes an answer for the truth, if the program is not proved."""
    if is_for_looking():
        raise DeviceFault(f"{what} needs a proved program, and this one is not: {WAY_OUT}")


def installed_path(name: str) -> str:
    """A file below the prefix of the commands. PATH does not count: the `aide` that it names is
    AIDE."""
    path = path_below_prefix(name)
    if not (os.path.isfile(path) and os.access(path, os.X_OK)):
        raise DeviceFault(f"cannot find {shown(path)}, which came with this command")
    return path


def run_program(
    program: str,
    words: Sequence[str | bytes],
    descriptors: Mapping[int, int],
    take: Taker,
) -> Answer:
    """Runs the program. A Fault unless its status is one of its own. `descriptors` are those of the
    databases and of the configuration. What it writes goes to `take`."""
    errors = bytearray()
    takers = {1: take, 2: Drain(MAX_ERRORS, errors.extend).take}
    environment = {**os.environ, "LC_ALL": "C"}
    try:
        status = run([program, *words], takers, descriptors, environment)
    except OSError as error:
        raise DeviceFault(f"cannot run {shown(program)}: {reason(error)}")
    if status < 0:
        raise DeviceFault(f"{shown(program)} was ended by signal {-status}")
    if status == NOT_STARTED:
        raise DeviceFault(f"cannot run {shown(program)}")
    if status not in KNOWN:
        raise DeviceFault(f"{shown(program)} could not be run: status {status}")
    return Answer(status, bytes(errors))
