#!/usr/bin/env python3
"""Measures how many hosts aide-compare hosts compare does in a minute, and in how much memory, by
the number of jobs; then what aide-compare hosts report needs for all of them.

Makes a pair of databases, compressed by gzip, and simulated hosts. A small program replaces ssh and
prints the new database. One host in a hundred (--differ) differs from its baseline, by one entry
(--changes). With --upgraded each host differs by so many entries more, and with --canary so does
the first host, which the others are then compared with. Prints for each number of jobs: the seconds
by the clock, the hosts a minute, the processor seconds a host, and the greatest memory of all
processes together (their proportional set size, 20 times a second). The same is printed for
aide-compare hosts report, as text and as JSON, with the number of changes and the bytes written.
"""
from __future__ import annotations

import argparse
import base64
import gzip
import hashlib
import os
import re
import resource
import subprocess
import tempfile
import threading
import time
from typing import IO, NamedTuple

TOP = os.path.dirname(os.path.dirname(os.path.abspath(__file__)))
SPEC = "@@begin_db\n@@db_spec name perm uid gid size mtime inode lcount attr sha256\n"
SSH = """#!/bin/sh
while [ "${1#-}" != "$1" ]; do [ "$1" = -o ] && shift; shift; done
[ $((1${1#host} %% %(differ)d)) -ne %(marked)d ] || exec cat "%(root)s/marked"
exec cat "%(root)s/new"
"""


class Usage(NamedTuple):
    """Seconds by the clock, seconds of the processors, and MB of memory."""

    clock: float
    processor: float
    memory: float


def database(entries: int, upgraded: int, marked: int) -> bytes:
    """A database whose first entries have an upgrade's content, and whose last ones have a mark."""
    lines = [SPEC]
    for number in range(entries):
        text = str(number)
        if number < upgraded:
            text += "upgraded"
        elif number >= entries - marked:
            text += "marked"
        digest = base64.b64encode(hashlib.sha256(text.encode()).digest()).decode()
        path = f"/usr/share/folder{number // 1000:03}/file{number:06}"
        rest = f"{number * 37} MTcwMDAwMDAwMA== {number} 1 35433482557 {digest}"
        lines.append(f"{path} 100644 0 0 {rest}\n")
    return gzip.compress("".join(lines + ["@@end_db\n"]).encode(), 6)


class Memory(threading.Thread):
    """The greatest sum of the proportional set sizes of all processes of a session."""

    def __init__(self, session: int) -> None:
        super().__init__(daemon=True)
        self.session = session
        self.greatest = 0
        self.has_ended = False

    def run(self) -> None:
        while not self.has_ended:
            numbers = filter(str.isdigit, os.listdir("/proc"))
            self.greatest = max(self.greatest, sum(map(self.size, numbers)))
            time.sleep(0.05)

    def size(self, number: str) -> int:
        try:
            if os.getsid(int(number)) != self.session:
                return 0
            with open(f"/proc/{number}/smaps_rollup") as file:
                return sum(int(line.split()[1]) for line in file if line.startswith("Pss:"))
        except OSError:
            return 0


def put_hosts(root: str, args: argparse.Namespace) -> None:
    texts = {
        "old": database(args.entries, 0, 0),
        "new": database(args.entries, args.upgraded, 0),
        "marked": database(args.entries, args.upgraded, args.changes),
    }
    for name, text in texts.items():
        with open(f"{root}/{name}", "wb") as file:
            file.write(text)
    os.mkdir(f"{root}/stubs")
    with open(f"{root}/stubs/ssh", "w") as script:
        script.write(SSH % {"differ": args.differ, "marked": 1 % args.differ, "root": root})
    os.chmod(f"{root}/stubs/ssh", 0o755)
    with open(f"{root}/hosts", "w") as hosts:
        for number in range(args.hosts):
            directory = f"{root}/store/hosts/host{number:06}"
            os.makedirs(directory)
            os.link(f"{root}/old", f"{directory}/aide.db")
            hosts.write(f"host{number:06}\n")
    sizes = f"{len(texts['old'])} bytes, {len(gzip.decompress(texts['old']))} unpacked"
    print(f"{args.hosts} hosts, {args.entries} entries: {sizes}; load {os.getloadavg()[0]:.1f}")


def usage_of(root: str, command: list[str], target: IO[str]) -> Usage:
    """Runs a command, and measures it and all that it starts."""
    path = f"{root}/stubs:{os.environ['PATH']}"
    environment = {**os.environ, "PATH": path, "TMPDIR": root}
    before = resource.getrusage(resource.RUSAGE_CHILDREN)
    start = time.monotonic()
    process = subprocess.Popen(command, env=environment, stdout=target, start_new_session=True)
    memory = Memory(process.pid)
    memory.start()
    process.wait()
    clock = time.monotonic() - start
    after = resource.getrusage(resource.RUSAGE_CHILDREN)
    memory.has_ended = True
    processor = after.ru_utime + after.ru_stime - before.ru_utime - before.ru_stime
    return Usage(clock, processor, memory.greatest / 1024)


def compare(root: str, jobs: int, args: argparse.Namespace) -> None:
    command = [f"{root}/usr/local/bin/aide-compare", "hosts", "compare", "--jobs", str(jobs)]
    if args.canary:
        command += ["--canary", "host000000"]
    with open(f"{root}/lines", "w+") as target:
        usage = usage_of(root, [*command, "--store", f"{root}/store", f"{root}/hosts"], target)
        target.seek(0)
        summary = target.read().strip().rsplit("\n", 1)[-1]
    print(
        f"{jobs:3} jobs: {usage.clock:6.1f} s, {60 * args.hosts / usage.clock:6.0f} hosts a minute,"
        f" {usage.processor / args.hosts:.3f} processor seconds a host, {usage.memory:5.0f} MB;"
        f" {summary}",
        flush=True,
    )


def report(root: str, form: list[str], args: argparse.Namespace) -> None:
    command = [f"{root}/usr/local/bin/aide-compare", "hosts", "report", "--store", f"{root}/store"]
    with open(f"{root}/report", "w+") as target:
        usage = usage_of(root, [*command, *form, f"{root}/hosts"], target)
        size = os.fstat(target.fileno()).st_size
        target.seek(0)
        pattern = re.compile('{"record":"change"|(added|removed|changed) ')
        changes = sum(pattern.match(line) is not None for line in target)
    print(
        f"aide-compare hosts report {' '.join(form)}: {usage.clock:.1f} s,"
        f" {usage.processor / args.hosts:.4f} processor seconds a host, {usage.memory:.0f} MB;"
        f" {changes} changes in {size / 1e6:.1f} MB",
        flush=True,
    )


def main() -> None:
    parser = argparse.ArgumentParser(
        description=__doc__, formatter_class=argparse.RawDescriptionHelpFormatter
    )
    parser.add_argument("--hosts", type=int, default=1000)
    parser.add_argument("--entries", type=int, default=2000)
    parser.add_argument("--jobs", default="1,4,16", help="numbers separated by commas")
    parser.add_argument("--differ", type=int, default=100, help="one host in so many has a mark")
    parser.add_argument("--changes", type=int, default=1, help="marked entries of such a host")
    parser.add_argument("--upgraded", type=int, default=0, help="upgraded entries of every host")
    parser.add_argument("--canary", action="store_true", help="trust the first host")
    parser.add_argument("program")
    args = parser.parse_args()
    with tempfile.TemporaryDirectory(prefix="bench-hosts-") as root:
        install = [os.path.join(TOP, "packaging", "install"), "--prefix", f"{root}/usr/local"]
        program = ["--program", os.path.abspath(args.program)]
        subprocess.run(install + program, check=True, stdout=subprocess.DEVNULL)
        put_hosts(root, args)
        for jobs in args.jobs.split(","):
            compare(root, int(jobs), args)
        report(root, [], args)
        report(root, ["--format=json"], args)
        print(f"load {os.getloadavg()[0]:.1f}")


if __name__ == "__main__":
    main()
