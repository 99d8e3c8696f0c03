#!/usr/bin/env python3
"""Counts the instructions of the programs, compared with `sha256sum` and, if it is installed, AIDE.

It makes pairs of databases that differ in one way each and prints one table in Markdown, the worst
row first. An opening is one reading of both databases: the lines of JSON take one, the report at
`minimal` two, and every other report one more for each list of entries and one for the details.
`sha256sum` reads both databases as often as the program opens them.

valgrind's cachegrind counts instructions, which are the same in every run, so other work on the
machine changes nothing. If AIDE is installed, its processor time (user and system, the least of
the runs) is divided by that of the program, each measured alone.
"""
from __future__ import annotations

import argparse
import datetime
import os
import platform
import re
import shutil
import subprocess
import sys
import tempfile
from collections.abc import Iterator
from typing import NamedTuple

from databases import PAIRS, write_pair

DETAILS = "changed_attributes"
ENTRIES = "added_removed_entries"
LINES = "lines"
# The pairs, the lengths of their lines in bytes, and the levels at which they are compared.
CASES = [
    ("none changed", (77, 138, 165, 259, 1000), ("minimal", LINES)),
    ("0.1 % changed", (165, 259), (DETAILS, LINES)),
    ("a few of each", (165, 259), (DETAILS, ENTRIES)),
    ("10 % changed", (165, 259), (DETAILS, LINES)),
    ("100 % changed", (77, 138, 165, 259, 653), (DETAILS, LINES)),
    ("100 % added", (77, 138, 165, 259, 653), (ENTRIES, LINES)),
    ("100 % removed", (165,), (ENTRIES, LINES)),
    ("a column more", (165, 259), ("minimal", DETAILS)),
    ("an upgrade", (165, 259), (DETAILS, LINES)),
]
BUILDS = {"x86-64-v2": "", "x86-64-v3": "-v3"}
AIDE = shutil.which("aide")
# AIDE reads this configuration too, and compares only the entries that a line selects.
CONFIGURATION = """database_in=file:@@{DIR}/old
database_new=file:@@{DIR}/new
report_level=@@{LEVEL}
report_format=@@{FORM}
report_url=stdout
Every = p+ftype+l+u+g+s+b+m+c+i+n+md5+sha256+X
/ Every
"""


class Usage(NamedTuple):
    """What a run took: processor seconds, the greatest memory in MB, and the bytes it wrote."""

    seconds: float
    memory: float
    written: int
    signal: int


class Row(NamedTuple):
    """One pair at one level, with the instructions of each build and of `sha256sum`."""

    name: str
    length: int
    entries: int
    level: str
    openings: int
    builds: list[int]
    hashed: int
    usage: Usage
    aide: str

    def ratio(self) -> float:
        return self.builds[0] / self.hashed

    def cells(self) -> list[str]:
        counts = [f"{count / 1e6:.1f} | {count / self.hashed:.2f}" for count in self.builds]
        return [
            self.name,
            str(self.length),
            str(self.entries),
            f"`{self.level}`",
            str(self.openings),
            *counts,
            f"{self.usage.written / 1e6:.1f}",
            f"{self.usage.memory:.1f}",
            self.aide,
        ]


def instructions_of(command: list[str]) -> int:
    """How many instructions a command takes, as cachegrind counts them."""
    tool = ["valgrind", "--tool=cachegrind", "--cache-sim=no", "--cachegrind-out-file=/dev/null"]
    done = subprocess.run(
        tool + command,
        stdin=subprocess.DEVNULL,
        stdout=subprocess.DEVNULL,
        stderr=subprocess.PIPE,
        text=True,
        check=False,
    )
    found = re.search(r"I +refs: +([0-9,]+)", done.stderr)
    if not found:
        sys.exit(f"valgrind did not count the instructions of {command[0]}")
    return int(found[1].replace(",", ""))


def usage_of(command: list[str], directory: str) -> Usage:
    """Runs a command by GNU time, which is small: a child of this process begins with its
    memory. It ends itself as a shell does if a signal has ended the command."""
    output = os.path.join(directory, "output")
    figures = os.path.join(directory, "figures")
    with open(output, "wb") as target:
        done = subprocess.run(
            ["/usr/bin/time", "-q", "-o", figures, "-f", "%U %S %M", *command],
            stdin=subprocess.DEVNULL,
            stdout=target,
            stderr=subprocess.DEVNULL,
            check=False,
        )
    with open(figures) as file:
        user, system, memory = file.read().split()[-3:]
    signal = max(0, done.returncode - 128)
    return Usage(float(user) + float(system), int(memory) / 1024, os.path.getsize(output), signal)


def compare(executable: str, directory: str, level: str) -> list[str]:
    """The command that compares the pair of a directory at a level."""
    # The program of lines writes JSON in any case, and AIDE if it is asked to.
    form = "json" if level == LINES and executable == AIDE else "plain"
    defined = f"@@define DIR {directory}\n@@define FORM {form}\n@@define LEVEL "
    defined += ENTRIES if level == LINES else level
    configuration = os.path.join(directory, "conf")
    return [executable, "--compare", "--config", configuration, "--before", defined]


def aide_of(program: str, directory: str, level: str, runs: int) -> str:
    """How many times as long as the program AIDE takes, or the signal that ended it."""
    if not AIDE:
        return ""
    theirs = [usage_of(compare(AIDE, directory, level), directory) for _ in range(runs)]
    if theirs[0].signal:
        return f"crashes (signal {theirs[0].signal})"
    ours = [usage_of(compare(program, directory, level), directory) for _ in range(runs)]
    least = min(usage.seconds for usage in theirs)
    return f"{least:.2f} s, {least / max(0.01, min(usage.seconds for usage in ours)):.0f} times"


def measured(args: argparse.Namespace, directory: str, name: str, length: int, level: str) -> Row:
    """Measures the pair that lies in a directory."""
    openings = PAIRS[name].openings(level)
    sides = [os.path.join(directory, side) for side in ("old", "new")]
    program = args.program
    if level == LINES:
        program = program.replace("/aide/", "/aide_lines/") + "_lines"
    commands = [compare(program + suffix, directory, level) for suffix in BUILDS.values()]
    print(f"measuring {name}, {length} bytes, {level}", file=sys.stderr, flush=True)
    return Row(
        name,
        length,
        args.entries,
        level,
        openings,
        [instructions_of(command) for command in commands],
        instructions_of(["sha256sum", *sides * openings]),
        usage_of(commands[0], directory),
        aide_of(program, directory, level, args.runs),
    )


def all_rows(args: argparse.Namespace) -> Iterator[Row]:
    for name, lengths, levels in CASES:
        for length in lengths:
            with tempfile.TemporaryDirectory(dir=args.directory) as directory:
                sides = [os.path.join(directory, side) for side in ("old", "new")]
                write_pair(sides[0], sides[1], length, PAIRS[name], args.entries)
                with open(os.path.join(directory, "conf"), "w") as file:
                    file.write(CONFIGURATION)
                for level in levels:
                    yield measured(args, directory, name, length, level)


def first_line(*command: str) -> str:
    done = subprocess.run(
        command, stdout=subprocess.PIPE, stderr=subprocess.STDOUT, text=True, check=False
    )
    return done.stdout.splitlines()[0]


def processor() -> str | None:
    with open("/proc/cpuinfo") as file:
        return next((line.split(": ")[1].strip() for line in file if "model name" in line), None)


def main() -> None:
    parser = argparse.ArgumentParser(
        description=__doc__, formatter_class=argparse.RawDescriptionHelpFormatter
    )
    parser.add_argument("program", help="the built program, crates/aide/out/aide")
    parser.add_argument("--entries", type=int, default=5000, help="entries of a database")
    parser.add_argument("--runs", type=int, default=3, help="runs of AIDE and of the program")
    parser.add_argument("--directory", help="where the databases are made")
    args = parser.parse_args()
    args.program = os.path.abspath(args.program)
    rows = sorted(all_rows(args), key=Row.ratio, reverse=True)
    aide = f"; {first_line(AIDE, '--version')}" if AIDE else ""
    print(f"Measured on {datetime.date.today()}: {processor()}, {platform.release()};", end=" ")
    print(f"{first_line('rt', 'version')}; {first_line('sha256sum', '--version')}{aide}.\n")
    counts = [f"{build}, millions | times" for build in BUILDS]
    headings = ["Pair", "Line, bytes", "Entries", "Level", "Openings", *counts]
    headings += ["Written, MB", "Peak, MB", "AIDE"]
    print(f"| {' | '.join(headings)} |\n|{'---|' * (len(headings) + len(BUILDS))}")
    for row in rows:
        print(f"| {' | '.join(row.cells())} |")


if __name__ == "__main__":
    main()
