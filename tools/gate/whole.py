"""The tests of the whole repository: what says soon what is wrong comes first.

These are the checks of files; if a crate differs from origin/main, the tests of the programs over
one that is not proved; `rt ci`, which proves all crates and builds the programs; the wrong bodies
of the crates, those that differ first; and all tests over the proved programs. If the program that
is not proved fails, nothing is proved.

The very last line is 'N passed, M failed' of all together, after what each part took; the status is
1 if something failed.
"""
from __future__ import annotations

import os
import re
import subprocess
import sys
from collections.abc import Callable

from tests.lib.scratch import TOP
from tests.lib.tally import Tally
from tools.gate import judge, second_builds, unit_tests, unproved
from tools.lib.arguments import parser_of
from tools.lib.jobs import jobs

PROGRAM = "crates/aide/out/aide"
PROGRAMS = (
    PROGRAM,
    "crates/aide_lines/out/aide_lines",
    "crates/aide_in_memory/out/aide_in_memory",
    "crates/aide_planned/out/aide_planned",
)
# What a check takes at the most, as it was seen: 1.6 GB, and more for a crate with many functions.
BYTES_OF_A_CHECK = 2_200_000_000
COUNTED = re.compile(r"(\d+) passed, (\d+) failed\n?")
# The tests that the builds for newer processors run too.
OF_PROGRAMS = "tests.program"
# The tests of the program whose devices fail by a plan.
OF_PLANS = "tests.planned"


class Gate(Tally):
    """What all parts counted, and the processor time that each of them took."""

    def __init__(self) -> None:
        super().__init__()
        self.spent: list[tuple[str, float]] = []

    def part(self, name: str, work: Callable[[Tally], object]) -> None:
        """Does a part. One that counts nothing has failed."""
        tally, before = Tally(), processor_time()
        work(tally)
        self.spent.append((name, processor_time() - before))
        self.passed += tally.passed
        self.failed += tally.failed
        self.skipped += tally.skipped
        if not tally.passed + tally.failed:
            self.add(name, ["it counted nothing"])

    def print_cost(self) -> None:
        """Prints what each part took."""
        for name, seconds in self.spent:
            print(f"{seconds:7.0f} s of the processor: {name}")
        minutes = sum(seconds for _, seconds in self.spent) / 60
        print(f"{minutes:.0f} minutes of the processor", flush=True)


def processor_time() -> float:
    """The seconds of processor time of all children that have ended."""
    spent = os.times()
    return spent.children_user + spent.children_system


def changed_crates() -> list[str]:
    """The crates that differ from origin/main; none if that is not known here."""
    words = ["git", "-C", TOP, "diff", "--name-only", "origin/main", "--", "crates/*/*"]
    try:
        done = subprocess.run(words, stdout=subprocess.PIPE, stderr=subprocess.DEVNULL, text=True)
    except OSError:
        return []
    names = done.stdout.splitlines() if done.returncode == 0 else []
    return sorted({name.split("/")[1] for name in names})


def try_unproved(tally: Tally) -> None:
    """The tests of the programs, over programs that are built without their proofs."""
    if all([unproved.made(name) for name in unproved.NAMES]):
        program = f"{PROGRAM}-unproved"
        names = unit_tests.modules(OF_PROGRAMS) + unit_tests.modules(OF_PLANS)
        unit_tests.run_all(names, tally, program, is_quick=True)
    else:
        tally.add("the programs without their proofs", ["were not built"])


def prove(tally: Tally) -> None:
    """What the gate has proved it builds too: those very programs are tried, and none that was
    there before."""
    for name in PROGRAMS:
        if os.path.lexists(os.path.join(TOP, name)):
            os.remove(os.path.join(TOP, name))
    os.environ.setdefault("RT_JOBS", str(jobs(BYTES_OF_A_CHECK)))
    # For root `rt ci` runs what it has built as nobody, who has to be able to read it.
    umask = os.umask(0o022)
    with subprocess.Popen(
        ["rt", "ci"], cwd=TOP, stdout=subprocess.PIPE, stderr=subprocess.STDOUT, text=True
    ) as process:
        line = ""
        for line in process.stdout or ():
            print(line, end="", flush=True)
    os.umask(umask)
    counted = COUNTED.fullmatch(line)
    tally.passed, tally.failed = map(int, counted.groups()) if counted else (0, 0)
    if process.returncode and not tally.failed:
        tally.add("rt ci", [f"it ended with {process.returncode}"])


def is_built(name: str) -> bool:
    return os.access(os.path.join(TOP, name), os.X_OK)


def runs_here(program: str) -> bool:
    """Whether this machine's processor runs a build. One that lacks an instruction is answered with
    status 127."""
    words = [os.path.join(TOP, program), "-D", "-c", "/dev/null"]
    return is_built(program) and subprocess.call(words) != 127


def try_programs(gate: Gate) -> None:
    """The tests of the programs that were proved, and of the builds for newer processors, whose
    answers have to be those of the other builds."""
    gate.part("second builds", lambda tally: second_builds.build_all(tally, ran_now=True))
    names = [name for name in unit_tests.modules() if not name.startswith(unit_tests.SOURCE)]
    gate.part("tests", lambda tally: unit_tests.run_all(names, tally, PROGRAM))
    newer = PROGRAM + second_builds.NEWER
    if runs_here(newer):
        names = unit_tests.modules(OF_PROGRAMS)
        gate.part(newer, lambda tally: unit_tests.run_all(names, tally, newer, is_quick=True))
    else:
        print("skipped: this processor does not run the builds for newer ones", flush=True)


def prove_and_try(gate: Gate, changed: list[str]) -> None:
    """What takes long: the proofs, the wrong bodies, and the programs that were proved."""
    gate.part("rt ci", prove)
    lanes = jobs(BYTES_OF_A_CHECK)
    gate.part("wrong bodies", lambda tally: judge.judge_all(tally, lanes, judge.in_turn(changed)))
    if all(map(is_built, PROGRAMS[:2])):
        try_programs(gate)
    else:
        gate.add("the programs", ["were not built"])


def main() -> int:
    parser_of("tools.gate.whole", __doc__).parse_args()
    gate = Gate()
    names = unit_tests.modules(unit_tests.SOURCE)
    gate.part(unit_tests.SOURCE, lambda tally: unit_tests.run_all(names, tally))
    changed = changed_crates()
    if changed:
        gate.part("programs without proofs", try_unproved)
    if gate.failed:
        print("nothing is proved, since what comes before has failed", flush=True)
    else:
        prove_and_try(gate, changed)
    gate.print_cost()
    return gate.status()


if __name__ == "__main__":
    sys.exit(main())
