"""Proves and builds programs: first the libraries below them, bottom up, as `rt lib` does, then the
programs by `rt run`. What is proved already is not proved again.

A library is proved by as many processes as processors and free memory allow, and beside it a second
one by one process if there is memory for that too. Each minute a line says how much of the work is
done. It can be stopped at any time: the next run goes on with what is proved.
"""
from __future__ import annotations

import contextlib
import glob
import os
import signal
import subprocess
import sys
import tempfile
import time
from collections.abc import Callable, Iterable
from concurrent.futures import FIRST_COMPLETED, Future, ThreadPoolExecutor, wait
from typing import IO, Any, NamedTuple

from tools.lib.arguments import add_names, parser_of
from tools.lib.file_times import before_now
from tools.lib.jobs import free_memory, jobs
from tools.source.checker import TOP, below, is_stale, libraries, rt_module

PROGRAMS = ("aide_lines", "aide")
# The most memory that a process of a first proof was seen to take.
EACH = 1600 * 10**6
# What a line of a crate takes of a processor, in seconds. Loading so many lines of the crates below
# it takes as long as proving one.
SECONDS = 0.1
LOADED = 20
MINUTE = 60.0
# Proves a crate with so many jobs, and writes what the toolchain says. Whether it is proved.
Prover = Callable[[str, int, IO[str]], bool]


def lines_of(crate: str) -> int:
    """How many lines of Rattle a crate has."""
    paths = glob.glob(os.path.join(TOP, "crates", crate, "src", "**", "*.rt"), recursive=True)
    count = 0
    for path in paths:
        with open(path, "rb") as file:
            count += file.read().count(b"\n")
    return count


def costs_of(names: Iterable[str], uses: dict[str, list[str]]) -> dict[str, int]:
    """What each crate costs, in lines."""
    return {
        name: lines_of(name) + sum(map(lines_of, below(name, uses))) // LOADED + 1 for name in names
    }


def lanes() -> list[int]:
    """How many jobs each of the crates gets that are proved at a time."""
    most = jobs(EACH)
    beside_another = min(most, free_memory() // EACH - 1)
    if beside_another < 2:
        return [most]
    return [beside_another, 1]


def expected(cost: int, number: int) -> float:
    """How many seconds a proof takes. Of so many jobs about half are busy all the time."""
    return cost * SECONDS * 2 / (1 + number)


class Running(NamedTuple):
    """A crate that is being proved."""

    name: str
    lane: int
    jobs: int
    since: float
    log: IO[str]


class Work:
    """Crates that are to be proved, each after those that it uses, and what they cost."""

    def __init__(self, names: Iterable[str], uses: dict[str, list[str]]) -> None:
        self.costs = costs_of(names, uses)
        self.waiting = list(self.costs)
        self.needs = {name: set(uses[name]) & set(self.costs) for name in self.costs}
        # What the longest chain of crates costs that begins with each of them.
        self.chains: dict[str, int] = {}
        for name in reversed(self.waiting):
            above = [self.chains[other] for other in self.chains if name in self.needs[other]]
            self.chains[name] = self.costs[name] + max(above, default=0)
        self.running: dict[Future[bool], Running] = {}
        self.proved: set[str] = set()
        self.start = self.shown = time.monotonic()
        # The seconds that proofs took, and were expected to take: other work slows them.
        self.taken = self.expected = 0.0

    def ready(self, names: Iterable[str]) -> list[str]:
        """Those of some crates that can be proved now, the one first on which most work rests."""
        found = [name for name in self.waiting if name in names and self.needs[name] <= self.proved]
        return sorted(found, key=self.chains.__getitem__, reverse=True)

    def announce(self, programs: Iterable[str], number: int) -> None:
        """Prints what there is to do, and how long it takes with so many jobs for a library."""
        names = set(programs)
        jobs_of = {name: 1 if name in names else number for name in self.costs}
        seconds = sum(expected(cost, jobs_of[name]) for name, cost in self.costs.items())
        crates = f"{len(self.costs)} crate{'s' * (len(self.costs) > 1)}"
        minutes = f"about {max(1, round(seconds / 60))} min if nothing else runs"
        print(f"  {crates} to prove, {minutes}; if you stop it, the next run goes on", flush=True)

    def prove(self, names: Iterable[str], prover: Prover, sizes: list[int]) -> str | None:
        """Proves these crates, one in each lane at a time. Returns what was said of the first one
        that was not proved."""
        names = set(names)
        pool = ThreadPoolExecutor(len(sizes))
        while self.running or names & set(self.waiting):
            taken = {each.lane for each in self.running.values()}
            free = [lane for lane in range(len(sizes)) if lane not in taken]
            for lane, name in zip(free, self.ready(names)):
                self._begin(pool, prover, Running(name, lane, sizes[lane], time.monotonic(), log()))
            done, _ = wait(self.running, timeout=min(MINUTE, 1), return_when=FIRST_COMPLETED)
            for future in done:
                ended = self.running.pop(future)
                text = end_of(ended.log)
                if not future.result():
                    return f"{ended.name} was not proved:\n{text}"
                self.proved.add(ended.name)
                self.taken += time.monotonic() - ended.since
                self.expected += expected(self.costs[ended.name], ended.jobs)
            self.show()
        return None

    def _begin(self, pool: ThreadPoolExecutor, prover: Prover, crate: Running) -> None:
        self.waiting.remove(crate.name)
        self.running[pool.submit(prover, crate.name, crate.jobs, crate.log)] = crate

    def share(self) -> float:
        """How much of the work is done, from 0 to 1. A crate that is being proved counts by its
        time, and by how much longer the others took than expected: after that time three quarters
        of it are done, and never all."""
        slowness = self.taken / self.expected if self.proved else 1
        done = float(sum(self.costs[name] for name in self.proved))
        for each in self.running.values():
            cost = self.costs[each.name]
            part = (time.monotonic() - each.since) / slowness / expected(cost, each.jobs)
            done += cost * (1 - 0.25**part)
        return done / sum(self.costs.values())

    def show(self) -> None:
        """Prints a line each minute."""
        now = time.monotonic()
        if now - self.shown < MINUTE or not self.running:
            return
        self.shown = now
        share = self.share()
        minutes = (now - self.start) / 60
        names = ", ".join(each.name for each in self.running.values())
        left = max(1, minutes * (1 - share) / share)
        done = f"{int(100 * share)}% of the work done in {minutes:.0f} min"
        print(f"  {done}, about {left:.0f} min left: {names}", flush=True)


def log() -> IO[str]:
    return tempfile.TemporaryFile("w+", errors="replace")


def end_of(file: IO[str]) -> str:
    """The end of what was written in a file, which is closed."""
    with file:
        file.seek(0)
        return file.read()[-4000:]


def run_rt(words: list[str], crate: str, to: IO[str]) -> bool:
    folder = os.path.join(TOP, "crates", crate)
    done = subprocess.run(
        ["rt", *words], cwd=folder, stdin=subprocess.DEVNULL, stdout=to, stderr=to
    )
    return done.returncode == 0


def prove_by_command(crate: str, number: int, to: IO[str]) -> bool:
    return run_rt(["lib", "--jobs", str(number)], crate, to)


def prove_program(crate: str, number: int, to: IO[str]) -> bool:
    """Proves and builds a program, which is as old as the beginning of this. rt leaves one as it is
    whose sources have new times only."""
    start = before_now()
    is_proved = run_rt(["run", "--jobs", str(number), "--", "-D", "-c", "/dev/null"], crate, to)
    with contextlib.suppress(FileNotFoundError):
        if is_proved:
            os.utime(os.path.join(TOP, "crates", crate, "out", crate), (start, start))
    return is_proved


def by_module(rt: Any, crates: dict[str, Any]) -> Prover:
    """Proves as `rt lib` does, by its own function: `rt lib` locks all crates below one, so that no
    second one runs beside it."""

    def prove(name: str, number: int, to: IO[str]) -> bool:
        crates[name].out = to
        status: int = crates[name].build_rlib(["--jobs", str(number)], anew=False)
        return status == 0

    rt.guarded()  # The first call sets a handler, which only the main thread may.
    return prove


def prove_all(names: list[str]) -> str | None:
    """Proves and builds programs. Returns why one was not proved."""
    uses = libraries()
    chain = list(dict.fromkeys(other for name in names for other in below(name, uses)))
    rt = rt_module()
    if rt is None:
        stale = [name for name in chain if is_stale(name, uses)]
        work = Work([*stale, *names], uses)
        work.announce(names, jobs(EACH))
        why = work.prove(stale, prove_by_command, [jobs(EACH)])
    else:
        crates = {name: rt.Crate(os.path.join(TOP, "crates", name), TOP, {}) for name in chain}
        held = rt.lock(list(crates.values()))
        stale = [name for name in chain if not crates[name].is_built()]
        work = Work([*stale, *names], uses)
        sizes = lanes()
        work.announce(names, sizes[0])
        why = work.prove(stale, by_module(rt, crates), sizes)
        for descriptor in held:
            os.close(descriptor)
    return why or work.prove(names, prove_program, [1])


def stop(number: int, _: object) -> None:
    """Ends at once, with all that runs: threads that wait for a child would not."""
    print("stopped; the next run goes on with what is proved", flush=True)
    os._exit(128 + number)


def main() -> int:
    """Proves the programs that were named, or both."""
    parser = parser_of("tools.gate.proved", __doc__)
    add_names(parser, PROGRAMS)
    names = parser.parse_args().names or list(PROGRAMS)
    for number in (signal.SIGINT, signal.SIGTERM, signal.SIGHUP):
        signal.signal(number, stop)
    why = prove_all(names)
    if why:
        print(why, flush=True)
    return 1 if why else 0


if __name__ == "__main__":
    # Not sys.exit, which would wait for a library that is proved beside one that was not.
    status = main()
    sys.stdout.flush()
    os._exit(status)
