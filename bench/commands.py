#!/usr/bin/env python3
"""Measures what the installed commands take, by the number of entries of the databases.

Some of the entries of 165 bytes are changed. PROGRAM and the commands are installed below a
directory of this run, as packaging/install does it. The commands run in turn, several times, and
print nothing to a terminal. Prints a table in Markdown: the least processor seconds (user and
system) of a command with all programs that it starts, how many times that of the first row, and the
peak memory of the largest of its processes. The first row is the program of lines, which all of
these comparisons run. The rows of few entries are the fixed cost, for the two small databases of
examples/small_tree; their first row is Python that does nothing.
"""
from __future__ import annotations

import argparse
import os
import resource
import subprocess
import sys
import tempfile
from typing import NamedTuple

from databases import PAIRS, write_pair

TOP = os.path.dirname(os.path.dirname(os.path.abspath(__file__)))
HEAD = (
    "| Entries | Changed | Command | Processor, s | times | Peak, MB |\n|---|---|---|---|---|---|"
)


class Command(NamedTuple):
    """A command, and its name in the table."""

    name: str
    words: list[str]


class Bench:
    """A directory with the installed commands, and how often each is measured."""

    def __init__(self, directory: str, runs: int) -> None:
        self.directory = directory
        self.runs = runs

    def path(self, name: str) -> str:
        return os.path.join(self.directory, name)

    def once(self, command: Command) -> tuple[float, float]:
        """The processor seconds of a command and of what it starts, and its peak memory in MB.

        GNU time starts it, which is small: a child of this process begins with its memory."""
        figures = self.path("figures")
        before = resource.getrusage(resource.RUSAGE_CHILDREN)
        done = subprocess.run(
            ["/usr/bin/time", "-q", "-o", figures, "-f", "%M", *command.words],
            stdin=subprocess.DEVNULL,
            stdout=subprocess.DEVNULL,
            stderr=subprocess.DEVNULL,
            check=False,
        )
        if not 0 <= done.returncode <= 7:
            sys.exit(f"{command.name} ended with {done.returncode}")
        after = resource.getrusage(resource.RUSAGE_CHILDREN)
        seconds = after.ru_utime - before.ru_utime + after.ru_stime - before.ru_stime
        with open(figures) as file:
            return seconds, int(file.read().split()[-1]) / 1024

    def rows(self, entries: str, changed: str, runs: int, *commands: Command) -> None:
        """Runs commands in turn, again and again, and prints a row of the table for each."""
        taken = [[self.once(command) for command in commands] for _ in range(runs)]
        first: float | None = None
        for command, results in zip(commands, zip(*taken)):
            seconds = min(result[0] for result in results)
            memory = max(result[1] for result in results)
            first = first or seconds or 0.01
            cells = [entries, changed, command.name, f"{seconds:.3f}", f"{seconds / first:.2f}"]
            print(f"| {' | '.join(cells)} | {memory:.1f} |", flush=True)


def rows_of(bench: Bench, entries: int, pair: str) -> None:
    """The rows of one pair: the program, the comparison, and what is made of its lines."""
    old, new = bench.path("old"), bench.path("new")
    write_pair(old, new, 165, PAIRS[pair], entries)
    program = bench.path("installed/libexec/aide-compare/aide_lines")
    settings = f"database_in=file:{old}\ndatabase_new=file:{new}"
    compare = bench.path("installed/bin/aide-compare")
    state = ["--state", bench.path("state")]
    without = ["--exclude-from", os.path.join(TOP, "contrib", "aide", "debian.without")]
    queue = ["--queue", bench.path("queue")]
    os.makedirs(bench.path("queue"), exist_ok=True)
    bench.rows(
        str(entries),
        pair,
        bench.runs,
        Command("`aide_lines`, the program", [program, "-E", "-c", "/dev/null", "-A", settings]),
        Command("`aide-compare OLD NEW`", [compare, old, new]),
        Command("`aide-compare --state FILE OLD NEW`", [compare, *state, old, new]),
        Command("`aide-compare -q --state FILE OLD NEW`", [compare, "-q", *state, old, new]),
        Command(
            "`aide-compare mail`, as the unit calls it",
            [compare, "mail", *queue, *state, *without, old, new],
        ),
        Command("`aide-compare json OLD NEW`", [compare, "json", old, new]),
        Command("`aide-compare page OLD NEW`", [compare, "page", old, new]),
        Command("`aide-compare sort`, of a database in order", [compare, "sort", old]),
        Command("`sha256sum` of both databases", ["/usr/bin/sha256sum", old, new]),
    )


def fixed_cost(bench: Bench) -> None:
    """What the commands take whatever they compare."""
    tree = os.path.join(TOP, "examples", "small_tree")
    compare = bench.path("installed/bin/aide-compare")
    pair = [f"{tree}/old.db", f"{tree}/new.db"]
    state = ["--state", bench.path("state")]
    bench.rows(
        "few",
        "",
        25,
        Command("`python3 -IS -c pass`", ["/usr/bin/python3", "-IS", "-c", "pass"]),
        Command("`aide-compare OLD NEW`", [compare, *pair]),
        Command("`aide-compare --state FILE OLD NEW`", [compare, *state, *pair]),
        Command("`aide-compare status`", [compare, "status", *state]),
    )


def main() -> None:
    parser = argparse.ArgumentParser(
        description=__doc__, formatter_class=argparse.RawDescriptionHelpFormatter
    )
    parser.add_argument("program", metavar="PROGRAM", help="the built program")
    parser.add_argument(
        "--entries", default="100000", help="entries of a database, separated by commas"
    )
    parser.add_argument("--runs", type=int, default=3, help="how often each command runs")
    args = parser.parse_args()
    with tempfile.TemporaryDirectory(prefix="bench-commands-") as directory:
        prefix = os.path.join(directory, "installed")
        words = ["--prefix", prefix, "--program", os.path.abspath(args.program)]
        install = os.path.join(TOP, "packaging", "install")
        subprocess.run([install, *words], check=True, stdout=subprocess.DEVNULL)
        bench = Bench(directory, args.runs)
        print(HEAD, flush=True)
        fixed_cost(bench)
        for entries in args.entries.split(","):
            for pair in ("0.1 % changed", "100 % changed"):
                rows_of(bench, int(entries), pair)


if __name__ == "__main__":
    main()
