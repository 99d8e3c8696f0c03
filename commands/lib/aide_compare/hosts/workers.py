"""Many hosts are compared, some at a time: each in a process of its own, with a limit of memory and
of time. A host that ends its process ends no other one."""
from __future__ import annotations

import json
import os
import select
import signal
import time
from collections.abc import Iterator, Sequence
from contextlib import closing, suppress
from functools import partial
from typing import NamedTuple

from aide_compare.base.directories import closed_after
from aide_compare.base.ending import Fault, Status, fault_of, write_all
from aide_compare.base.escapes import guarded, shown
from aide_compare.base.processes import limit_memory, start_child
from aide_compare.hosts.fetching import fetch_watched
from aide_compare.hosts.host_comparison import HostsRun, compare
from aide_compare.hosts.hosts_read import words_of
from aide_compare.hosts.store import MAX_MEMORY, HostDirectory

MAX_TEXT = 300
GRACE = 5  # Seconds after those of a host, so that a transfer ends by itself.
PAUSE = 0.2  # A process that was ended may go on, in a call that does not return.


class HostResult(NamedTuple):
    """How the work on a host ended, and what its line says."""

    host: str
    status: int  # Of a comparison that of what is not silent.
    text: str
    has_changes: bool = False  # Silent ones too.

    def line(self) -> str:
        name = shown(self.host, 200).replace(" ", "\\040")
        return f"{name} {self.status} {self.text}"


def without_name(host: str, text: str) -> str:
    """A text about a host, whose name stands before it already."""
    return text.removeprefix(f"{host}: ")


def compare_host(host: str, run: HostsRun) -> HostResult:
    """Fetches and compares one host."""
    directory = HostDirectory(run.request.store, host, run.request.seconds)
    if not run.request.no_fetch:
        fetch_watched(directory, run.request.jobs)
    state = compare(directory, run)
    if state.status > 7:
        return HostResult(host, state.status, without_name(host, state.error))
    return HostResult(host, state.told_status, words_of(state), state.status > 0)


class Worker:
    """The process of one host, which the kernel ends if this one ends, and the pipe of its
    answer."""

    def __init__(self, host: str, run: HostsRun) -> None:
        self.host = host
        self.run = run
        self.deadline = time.monotonic() + run.request.seconds + GRACE
        self.is_late = False
        self.fd, writing = os.pipe()
        self.child = start_child(partial(self._write_result, writing))
        os.close(writing)

    def _write_result(self, descriptor: int) -> int:
        """The work of the process."""
        limit_memory(MAX_MEMORY)
        try:
            result = compare_host(self.host, self.run)
        except Exception as error:
            fault = fault_of(error)
            text = without_name(self.host, fault.text)
            result = HostResult(self.host, fault.status, text)
        text = guarded(result.text)[:MAX_TEXT]
        answer = json.dumps([result.status, text, result.has_changes])
        write_all(descriptor, answer.encode())
        return 0

    def result(self) -> HostResult:
        """The answer of the process. A pipe takes so few bytes in one piece."""
        with closed_after(self.fd):
            answer = os.read(self.fd, select.PIPE_BUF)
        ended = os.waitstatus_to_exitcode(os.waitpid(self.child, 0)[1])
        if answer and ended == 0:
            return HostResult(self.host, *json.loads(answer))
        text = f"ended without an answer ({ended})"
        if self.is_late:
            text = f"was not compared within {self.run.request.seconds} seconds"
        # The state says so. Another run may have the lock by now, and writes a state of its own.
        with suppress(Fault, OSError):
            with closing(HostDirectory(self.run.request.store, self.host, PAUSE)) as directory:
                directory.not_compared(f"{self.host}: {text}")
        return HostResult(self.host, Status.DEVICE, text)


def results(hosts: Sequence[str], run: HostsRun) -> Iterator[HostResult]:
    """The results of all hosts as they end, so many at a time."""
    waiting = list(reversed(hosts))
    workers: dict[int, Worker] = {}
    while waiting or workers:
        while waiting and len(workers) < run.request.jobs:
            worker = Worker(waiting.pop(), run)
            workers[worker.fd] = worker
        left = min(worker.deadline for worker in workers.values()) - time.monotonic()
        for descriptor in select.select(list(workers), [], [], max(left, PAUSE))[0]:
            yield workers.pop(descriptor).result()
        for worker in workers.values():
            if worker.deadline < time.monotonic():
                worker.is_late = True
                os.kill(worker.child, signal.SIGKILL)
