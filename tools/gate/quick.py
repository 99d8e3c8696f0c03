"""A verdict on what was changed: the checks of the files, and the tests of the changed modules.

Changed is what differs from --since (origin/main), and what git does not know yet. A changed module
is tried by the tests that import it or start a command that runs it, in the order of nearness: first
those that use or name the file itself. After some seconds no further one begins, and how many are
left out is said; --far runs them too. With --all every test runs that proves nothing and takes no
minutes. The tests run the program of AIDE_PROGRAM, or the last one
that was proved here, or else the unproved one of `tools/build_unproved`. The last line is 'N
passed, M failed'. This is no gate: only `tools/test` proves what it runs.
"""
from __future__ import annotations

import glob
import os
import re
import subprocess
import sys

from tests.lib.programs import BUILT, VARIABLE, beside
from tests.lib.scratch import TOP
from tests.lib.tally import Tally
from tools.gate import unit_tests
from tools.gate.affected import Tests
from tools.lib.arguments import parser_of

# The checks of files in Python, which take most of a minute and some seconds.
PYTHON = ("tests.source.test_python", "tests.source.test_tools")
PYTHON_ENDS = (".py", "commands/bin/aide-compare", "packaging/completions", "packaging/install")
# What compares the options of the commands with the manual.
OPTIONS_IN_MANUAL = "tests.pages.test_blocks"
# So long further modules of tests begin. Most take some seconds.
SECONDS = 12.0
# A change here that no test tries is a failure. What else has no test is a page or a tool.
TRIED = (
    *("commands/", "contrib/", "man/"),
    *("tests/commands/test_", "tests/planned/test_", "tests/program/test_"),
)


# What users see: an entry of a list in the manual, such as an option, and a row of severities.
SEEN = re.compile(r"^[+-](?:\.It |(?:high|medium|low) )", re.M)


def git(*words: str) -> str:
    try:
        done = subprocess.run(
            ["git", "-C", TOP, *words], stdout=subprocess.PIPE, check=True, text=True
        )
    except (OSError, subprocess.CalledProcessError) as error:
        sys.exit(f"what was changed is not known ({error}): --all needs no git")
    return done.stdout


def changed(since: str, tally: Tally) -> list[str]:
    """The files that differ from a revision, and new ones. What users see of them is a failure if
    CHANGELOG is none of them."""
    names = git("ls-files", "--others", "--exclude-standard") + git("diff", "--name-only", since)
    text = git("diff", "-U0", since, "--", "man", "commands/share")
    if "CHANGELOG.md" not in names and SEEN.search(text):
        tally.add("CHANGELOG.md", ["it has no entry for what users see of the changes"])
    return sorted(set(names.splitlines()))


def tests_for(names: list[str], tally: Tally) -> list[str]:
    """The modules of tests for these files, the nearest first. A file that no test tries is a
    failure."""
    tests = Tests()
    found: dict[str, int] = {}
    for name in names:
        if name.startswith("crates/"):
            near = unit_tests.modules("tests.program") + unit_tests.modules("tests.planned")
            modules = dict.fromkeys(near, 0)
        else:
            modules = tests.of(name)
        if name.startswith(TRIED) and not modules:
            tally.add(name, ["no test tries it"])
        if name.startswith(("commands/", "man/")):
            modules.setdefault(OPTIONS_IN_MANUAL, 0 if name.startswith("man/") else 1)
        for module, steps in modules.items():
            found[module] = min(steps, found.get(module, steps))
    # Those of single functions are the fastest ones.
    return sorted(found, key=lambda module: (found[module], ".units." not in module, module))


def find_program(tally: Tally, may_be_old: bool = False) -> str | None:
    """The program that was built last. One that is older than its sources is a failure, unless
    somebody has named it for all tests."""
    sources = glob.glob(os.path.join(TOP, "crates", "*", "src", "**", "*.rt"), recursive=True)
    for path in filter(None, (os.environ.get(VARIABLE), BUILT, BUILT + "-unproved")):
        if os.access(path, os.X_OK):
            print(f"the tests run {path}", flush=True)
            if os.path.getmtime(path) < max(map(os.path.getmtime, sources)):
                text = "it is older than its sources"
                if may_be_old:
                    print(f"{path}: {text}", flush=True)
                else:
                    tally.add(path, [f"{text}: run tools/build_unproved"])
            return path
    tally.add("the program", ["there is none, so no test ran: run tools/build_unproved"])
    return None


def with_program(modules: list[str], program: str) -> list[str]:
    """The modules of tests that can run: a build for users has no program of plans."""
    if os.access(beside(program, "aide_planned"), os.X_OK):
        return modules
    print("there is no program aide_planned here, so no test of tests/planned runs", flush=True)
    return [module for module in modules if not module.startswith("tests.planned.")]


def main() -> int:
    parser = parser_of("tools.gate.quick", __doc__)
    parser.add_argument(
        "--all", action="store_true", help="all tests that prove nothing and take no minutes"
    )
    parser.add_argument(
        "--since",
        default="origin/main",
        metavar="REVISION",
        help="what counts as changed (origin/main)",
    )
    parser.add_argument("--far", action="store_true", help="also the tests that are far away")
    args = parser.parse_args()
    tally = Tally()
    names = [] if args.all else changed(args.since, tally)
    modules = unit_tests.modules() if args.all else tests_for(names, tally)
    checks = set(unit_tests.modules(unit_tests.SOURCE))
    if not args.all and not any(name.endswith(PYTHON_ENDS) for name in names):
        checks.difference_update(PYTHON)
    unit_tests.run_all(sorted(checks), tally)
    waiting = [module for module in modules if module not in checks]
    program = find_program(tally, args.all and VARIABLE in os.environ) if waiting else None
    if program:
        if args.all:
            waiting = with_program(waiting, program)
        seconds = None if args.all or args.far else SECONDS
        print(f"{len(waiting)} modules of tests, the nearest first: {waiting[0]}", flush=True)
        left = unit_tests.run_all(waiting, tally, program, is_quick=True, seconds=seconds)
        if left:
            print(f"{left} modules that are further away did not run: --far runs them", flush=True)
    return tally.status()


if __name__ == "__main__":
    sys.exit(main())
