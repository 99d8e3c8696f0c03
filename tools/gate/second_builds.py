"""Builds both programs for newer processors too, and notes which files are proved builds.

`rt ci` and `rt run` build a program for x86-64-v2. Over the libraries that they have proved, this
checks the one function of a program's own crate again and compiles the whole for x86-64-v3:
`crates/NAME/out/NAME-v3`. Such a program ends with status 127 on a processor that lacks an
instruction of it; the commands then run the other build.

Beside each proved build stands a record, `NAME.proved` or `NAME-v3.proved`: the SHA-256 of the
file, and the toolchain. It is written at once after the proof. The last line is 'N passed, M
failed'.
"""
from __future__ import annotations

import hashlib
import os
import subprocess
import sys
from collections.abc import Sequence

from tests.lib.tally import Tally, side_by_side
from tools.lib.arguments import add_names, parser_of
from tools.lib.jobs import jobs
from tools.source.checker import TOP, kit, libraries, words_over

PROGRAMS = ("aide", "aide_lines")
NEWER = "-v3"
PROCESSOR = "x86-64-v3"
# The memory that a build takes, which loads all libraries.
EACH = 3 * 10**9


def path_of(crate: str, ending: str = "") -> str:
    """The file of a program, which need not be there."""
    return os.path.join(TOP, "crates", crate, "out", crate + ending)


def write_record(program: str) -> None:
    """Notes that this very file is a proved build."""
    with open(program, "rb") as file:
        digest = hashlib.sha256(file.read()).hexdigest()
    toolchain = subprocess.run(["rt", "version"], stdout=subprocess.PIPE, check=True, text=True)
    with open(program + ".proved", "w", encoding="utf-8") as file:
        file.write(f"sha256={digest}\nkit={toolchain.stdout.splitlines()[0]}\n")


def is_proved(said: str) -> bool:
    """Whether a build says of itself that it is proved, for this processor."""
    words = [line.split() for line in said.splitlines() if line.startswith("logic=")]
    return [line[0] for line in words] == ["logic=proved"] and f"cpu={PROCESSOR}" in words[0]


def words_of(crate: str, uses: dict[str, list[str]], kit: str) -> list[str]:
    """The command that builds a program for newer processors over its built libraries."""
    words = [os.path.join(kit, "bin", "rattle"), "build", "--crate-name", crate, "src/main.rt"]
    words += [*words_over(crate, uses, kit), "--jobs", "1"]
    words += ["--links", f"{crate}=", "--cpu", PROCESSOR, "--backend", "llvm"]
    return [*words, "--toolchain", os.path.join(kit, "toolchain")]


def run(words: list[str], folder: str) -> tuple[int, str]:
    """The status of a command, and the end of what it prints."""
    done = subprocess.run(
        words, cwd=folder, stdout=subprocess.PIPE, stderr=subprocess.STDOUT, check=False
    )
    return done.returncode, done.stdout.decode("utf-8", "replace")[-2000:]


def build(crate: str, uses: dict[str, list[str]]) -> list[str]:
    """Proves and builds a program for newer processors. Returns what went wrong."""
    tools, program = kit(), path_of(crate, NEWER)
    for old in (program, program + ".proved"):
        if os.path.lexists(old):
            os.remove(old)
    folder = os.path.join(TOP, "crates", crate)
    status, said = run([*words_of(crate, uses, tools), "-o", f"{program}.o"], folder)
    if status or not is_proved(said):
        return [f"it was not proved: {said}"]
    words = [os.path.join(tools, "bin", "rattle-link"), "--target", "x86_64-unknown-linux-gnu"]
    words += ["--toolchain", os.path.join(tools, "toolchain"), "-o", program, f"{program}.o"]
    words += [os.path.join(tools, "c", name) for name in ("libos_c.a", "liblibc_c.a")]
    status, said = run(words, folder)
    if status:
        return [f"it was not linked: {said}"]
    write_record(program)
    return []


def build_all(tally: Tally, ran_now: bool = False, names: Sequence[str] = PROGRAMS) -> None:
    """Builds programs for newer processors too, side by side if memory allows it. With `ran_now`
    the builds that are there, which the caller has just proved, get their records."""
    uses = libraries()
    if ran_now:
        for crate in names:
            write_record(path_of(crate))
    for crate, faults in zip(names, side_by_side(jobs(EACH), lambda it: build(it, uses), names)):
        tally.add(crate + NEWER, faults)


def main() -> int:
    """Builds the programs that were named, or both."""
    parser = parser_of("tools.gate.second_builds", __doc__)
    add_names(parser, PROGRAMS)
    tally = Tally()
    build_all(tally, names=parser.parse_args().names or PROGRAMS)
    return tally.status()


if __name__ == "__main__":
    sys.exit(main())
