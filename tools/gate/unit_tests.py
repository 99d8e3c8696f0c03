"""Runs modules of tests, some at a time, and counts what passed and what failed.

Each module runs as `python3 -m unittest MODULE` in a process of its own. A skip whose reason is not
expected counts as failed.
"""
from __future__ import annotations

import glob
import os
import re
import subprocess
import sys
import tempfile
import time

from tests.lib.copies import COMPILED, copy_commands
from tests.lib.programs import VARIABLE
from tests.lib.scratch import TOP
from tests.lib.tally import Tally, side_by_side

# What a machine may lack. A test that is skipped for another reason has failed.
EXPECTED = re.compile(
    "it needs root(, and unshare)?"
    "|it takes long"
    "|not installed: [a-z0-9_ -]+"
    "|nothing can be (mounted|leased) here"
    "|no device can be made here"
    "|there is no address [0-9a-z:.]+ here"
)
SKIPPED = re.compile(r"(?:^|\.\.\. )skipped (['\"])(.*)\1$", re.M)
# A part of a test, by `subTest`. Before Python 3.11 it looks as if the whole test were skipped.
SKIPPED_PART = re.compile(r"^  \w+ \(\S+\) .*?(?:\n.*?)?? \.\.\. skipped ", re.M)
RAN = re.compile(r"^Ran (\d+) tests? in ", re.M)
FAILED = re.compile(r"(?:failures|errors|unexpected successes)=(\d+)")
# The checks of the source, which need no program.
SOURCE = "tests.source"


def modules(package: str = "tests") -> list[str]:
    """The names of all modules of tests in a package."""
    folder = os.path.join(TOP, package.replace(".", os.sep))
    paths = glob.glob(os.path.join(folder, "**", "test_*.py"), recursive=True)
    return sorted(os.path.relpath(path, TOP)[: -len(".py")].replace(os.sep, ".") for path in paths)


def run(module: str, environment: dict[str, str]) -> tuple[str, int, str]:
    """Runs one module: its name, its status and what it printed."""
    words = [sys.executable, "-S", "-W", "ignore", "-m", "unittest", "-v", module]
    done = subprocess.run(
        words,
        cwd=TOP,
        env=environment,
        stdin=subprocess.DEVNULL,
        stdout=subprocess.PIPE,
        stderr=subprocess.STDOUT,
        check=False,
    )
    return module, done.returncode, done.stdout.decode("utf-8", "replace")


def judge(module: str, status: int, text: str, tally: Tally) -> None:
    """Counts how many tests of a module passed and failed. Prints what failed, and each skip with
    its reason."""
    ran = RAN.findall(text)
    reasons = [reason for _, reason in SKIPPED.findall(text)]
    last = text.rstrip("\n").rpartition("\n")[2]
    failed = sum(int(count) for count in FAILED.findall(last)) if last.startswith("FAILED") else 0
    if status and not failed:
        failed = 1
    if failed or not ran:
        print(text, flush=True)
    count = int(ran[-1]) if ran else 0
    skipped = len(reasons) - len(SKIPPED_PART.findall(text))
    tally.passed += max(0, count - skipped - failed)
    tally.skipped.update(reasons)
    for reason in reasons:
        is_expected = EXPECTED.fullmatch(reason)
        print(
            f"{module}: skipped{'' if is_expected else ', which is not expected'}: {reason}",
            flush=True,
        )
        failed += not is_expected
    tally.failed += failed
    if not count:
        tally.add(module, ["it has no test"])


def run_all(
    names: list[str],
    tally: Tally,
    program: str = "",
    is_quick: bool = False,
    seconds: float | None = None,
) -> int:
    """Runs modules with this program, one for each processor at a time, in their order. After so
    many seconds none begins. Returns how many did not run."""
    begun = time.monotonic()
    left = 0

    def run_one(name: str) -> tuple[str, int, str] | None:
        if seconds is not None and time.monotonic() - begun > seconds:
            return None
        return run(name, environment)

    environment = dict(os.environ)
    if program:
        environment[VARIABLE] = program
    if is_quick:
        environment["AIDE_QUICK"] = "1"
    jobs = len(os.sched_getaffinity(0))
    with tempfile.TemporaryDirectory(prefix="aide-compare-commands-") as directory:
        copy_commands(directory)
        environment[COMPILED] = directory
        for done in side_by_side(jobs, run_one, names):
            if done is None:
                left += 1
            else:
                judge(*done, tally)
    return left
