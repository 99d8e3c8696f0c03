"""The programs that packaging/install installs: proves and builds those of crates/ that are not
built, or older than a source, and builds them for newer processors too. It needs no rt if there is
nothing to do.
"""
from __future__ import annotations

import os
import shutil
import subprocess
import sys
from collections.abc import Sequence

from tools.gate.proved import PROGRAMS
from tools.gate.second_builds import NEWER, path_of, write_record
from tools.lib.arguments import parser_of
from tools.source.checker import TOP

NO_RT = """\
rt, which proves and builds the programs, is not installed. It is the command of Rattle, a language
like Rust whose functions have contracts that are proved by machine. Rattle is not public yet.
Without it you can install a package that somebody has made, or a program that somebody has built:
packaging/install --program FILE"""


def newest_source() -> float:
    """When a source of the programs was written last."""
    newest = 0.0
    for directory, directories, names in os.walk(os.path.join(TOP, "crates")):
        directories[:] = [each for each in directories if each != "out"]
        for name in names:
            if name.endswith((".rt", ".antt")):
                newest = max(newest, os.stat(os.path.join(directory, name)).st_mtime)
    return newest


def is_older(path: str, time: float) -> bool:
    """Whether a file is not there, or was written before a time."""
    return not os.path.exists(path) or os.stat(path).st_mtime < time


def run(tool: str, names: Sequence[str]) -> int:
    words = [sys.executable, "-m", f"tools.gate.{tool}", *names]
    return subprocess.run(words, cwd=TOP, check=False).returncode


def prove(names: Sequence[str]) -> str | None:
    """Proves and builds programs. Returns why one was not."""
    if not shutil.which("rt"):
        return NO_RT
    print(f"proved first, since a source is newer: {', '.join(names)}", flush=True)
    if run("proved", names):
        return "a program was not built"
    for name in names:
        if is_older(path_of(name), newest_source()):
            return f"{name} is older than its sources, after its proof"
        write_record(path_of(name))
    return None


def lacks_newer(name: str) -> bool:
    """Whether a program that was proved here has no build for newer processors."""
    program = path_of(name)
    if not os.path.exists(program + ".proved"):
        return False
    return is_older(path_of(name, NEWER), os.stat(program).st_mtime)


def main() -> int:
    parser = parser_of("tools.gate.built", __doc__)
    parser.add_argument(
        "--lines-only", action="store_true", help="the program of lines, for usual processors only"
    )
    lines_only = parser.parse_args().lines_only
    names = PROGRAMS[:1] if lines_only else PROGRAMS
    newest = newest_source()
    stale = [name for name in names if is_older(path_of(name), newest)]
    why = prove(stale) if stale else None
    if why:
        print(why)
        return 1
    lacking = [name for name in names if lacks_newer(name)]
    if lacking and not lines_only and run("second_builds", lacking):
        print("there is no build for newer processors")
    return 0


if __name__ == "__main__":
    sys.exit(main())
