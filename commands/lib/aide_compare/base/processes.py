"""Processes: a program that is run, which holds only what it needs, and is ended if it takes too
long, and work in a child. No other module starts one."""
from __future__ import annotations

import ctypes
import fcntl
import math
import os
import resource
import select
import signal
import time
from collections.abc import Callable, Mapping, Sequence
from contextlib import ExitStack, suppress
from functools import partial
from types import MappingProxyType
from typing import NoReturn

from aide_compare.base.ending import DeviceFault
from aide_compare.base.escapes import shown
from aide_compare.base.files import BLOCK

MAX_FILE = 256 << 20
STOP_SECONDS = 10
NOT_STARTED = 127
PR_SET_PDEATHSIG = 1

# What takes the bytes that come from a descriptor, as they come.
Taker = Callable[[bytes], object]
NO_DESCRIPTORS: Mapping[int, int] = MappingProxyType({})
# Of a program of the system, whatever the caller's is.
PLAIN_ENVIRONMENT = MappingProxyType({"PATH": "/usr/bin:/bin", "LC_ALL": "C", "HOME": "/"})


class OverTime(DeviceFault):
    """A program was not over by its deadline."""

    def __init__(self, program: str | bytes) -> None:
        super().__init__(f"{shown(program)} took too long, and was killed")


def bounded(text: bytearray, limit: int, what: str) -> Taker:
    """Takes what a program prints, which may be endless. `what` has so many bytes at most."""

    def take(block: bytes) -> None:
        text.extend(block)
        if len(text) > limit:
            raise DeviceFault(f"{what} more than {limit} bytes")

    return take


def end_with(parent: int) -> bool:
    """The kernel ends this process when its parent ends. False if that has ended already."""
    ctypes.CDLL(None).prctl(PR_SET_PDEATHSIG, signal.SIGKILL)
    return os.getppid() == parent


def bound_of(kind: int, limit: int) -> None:
    """Bounds what this process may take of something, and leaves its own right to less."""
    limits = resource.getrlimit(kind)
    finite = [each for each in limits if each >= 0]
    resource.setrlimit(kind, (min([limit, *finite]), limits[1]))


# The limits of the memory of this process before it has limited itself.
_limits_before: tuple[int, int] | None = None


def limit_memory(limit: int) -> None:
    """Bounds the memory of this process to what it has now and so many bytes more, and that of none
    of the programs that it starts."""
    global _limits_before
    _limits_before = resource.getrlimit(resource.RLIMIT_AS)
    with open("/proc/self/statm", encoding="ascii") as file:
        pages = int(file.read().split()[0])
    bound_of(resource.RLIMIT_AS, pages * resource.getpagesize() + limit)


def limit_time(seconds: int, what: str = "it") -> None:
    """Ends by a Fault what this process does if that takes longer, and the programs that it has
    started; 0 is no limit."""

    def end(_number: int, _frame: object) -> None:
        raise DeviceFault(f"{what} took more than {seconds} seconds")

    signal.signal(signal.SIGALRM, end)
    signal.alarm(seconds)


def start_child(work: Callable[[], int], lives_on: bool = False) -> int:
    """The number of a child that does some work, and ends with its status. The kernel ends it if
    this process ends first, unless it lives on."""
    parent = os.getpid()
    child = os.fork()
    if child:
        return child
    status = NOT_STARTED
    try:
        if lives_on or end_with(parent):
            status = work()
    finally:
        os._exit(status)


def _become_program(
    words: Sequence[str | bytes], descriptors: Mapping[int, int], environment: Mapping[str, str]
) -> NoReturn:
    """This process becomes a program. `descriptors` are its own by the numbers that they have
    there; other standard ones are /dev/null, and it has no more than these."""
    for number in (signal.SIGPIPE, signal.SIGXFSZ):  # Python ignores them.
        signal.signal(number, signal.SIG_DFL)
    for name in os.listdir("/proc/self/fd"):
        with suppress(OSError):  # The one of this list is closed.
            fcntl.fcntl(int(name), fcntl.F_SETFD, fcntl.FD_CLOEXEC)
    null = os.open("/dev/null", os.O_RDWR | os.O_CLOEXEC)
    own = {0: null, 1: null, 2: null, **descriptors}
    # First above all these numbers, of which some may be those of others.
    after = max(own) + 1
    copies = {place: fcntl.fcntl(own[place], fcntl.F_DUPFD_CLOEXEC, after) for place in own}
    for place, descriptor in copies.items():
        os.dup2(descriptor, place)
    if _limits_before:
        resource.setrlimit(resource.RLIMIT_AS, _limits_before)
    os.execvpe(words[0], list(words), environment)


def _become_bounded(
    words: Sequence[str | bytes], descriptors: Mapping[int, int], environment: Mapping[str, str]
) -> NoReturn:
    """The same in a session of its own: the terminal, if there is one, cannot stop it. It writes no
    larger file than MAX_FILE and leaves no core behind."""
    os.setsid()
    bound_of(resource.RLIMIT_FSIZE, MAX_FILE)
    bound_of(resource.RLIMIT_CORE, 0)
    _become_program(words, descriptors, environment)


def run(
    words: Sequence[str | bytes],
    takers: Mapping[int, Taker],
    descriptors: Mapping[int, int] = NO_DESCRIPTORS,
    environment: Mapping[str, str] = os.environ,
    deadline: float = math.inf,
) -> int:
    """Runs a program to its end. Returns its exit code, negative for a signal; NOT_STARTED if there
    is no such program. One that was not over by the deadline is killed, and that is an OverTime.

    What it writes to a descriptor with a taker goes there through a pipe. `descriptors` are its
    other ones, by their numbers.
    """
    places = dict(descriptors)
    readings = {}
    with ExitStack() as opened:
        with ExitStack() as writing:
            for place, taker in takers.items():
                reading, places[place] = os.pipe()
                opened.callback(os.close, reading)
                writing.callback(os.close, places[place])
                readings[reading] = taker
            child = start_child(partial(_become_bounded, words, places, environment))
        status = _end_of(words, child, readings, deadline)
    return status


def _end_of(
    words: Sequence[str | bytes], child: int, readings: Mapping[int, Taker], deadline: float
) -> int:
    """The exit code of the child that has become a program, when all that it writes was taken."""
    status = None
    try:
        if pump(readings, deadline):
            status = ended(child, deadline)
    finally:
        if status is None:
            stop(child)
    if status is None:
        raise OverTime(words[0])
    return status


def run_here(
    words: Sequence[str | bytes],
    seconds: int,
    environment: Mapping[str, str],
    is_silent: bool = False,
) -> int:
    """Runs a program of the system as a part of this command: on its terminal, and in its group, so
    that ^C ends both. Returns its exit code; it is killed, and that is an OverTime, if it takes
    longer. It writes where this command does, unless it is silent."""
    places = NO_DESCRIPTORS
    if not is_silent:
        places = {1: 1, 2: 2}
    child = start_child(partial(_become_program, words, places, environment))
    return _end_of(words, child, {}, time.monotonic() + seconds)


def run_on(
    words: Sequence[str | bytes], descriptors: Mapping[int, int], seconds: int
) -> int | None:
    """Runs a program that lives on if this process is ended. Returns its exit code; None if it had
    not ended by then, and was killed. `descriptors` are its standard ones."""

    def become() -> NoReturn:
        os.setsid()
        _become_program(words, descriptors, os.environ)

    child = start_child(become, lives_on=True)
    status = ended(child, time.monotonic() + seconds)
    if status is None:
        stop(child)
    return status


def pump(takers: Mapping[int, Taker], deadline: float) -> bool:
    """Gives what comes from each descriptor to its taker until all have ended; False if the time is
    over before that."""
    waiting = dict(takers)
    while waiting:
        remaining = deadline - time.monotonic()
        if remaining <= 0:
            return False
        timeout = None if remaining == math.inf else remaining
        for descriptor in select.select(list(waiting), [], [], timeout)[0]:
            block = os.read(descriptor, BLOCK)
            if block:
                waiting[descriptor](block)
            else:
                del waiting[descriptor]
    return True


def ended(child: int, deadline: float) -> int | None:
    """The exit code of a child, negative for a signal; None if it has not ended by the deadline."""
    options = 0 if deadline == math.inf else os.WNOHANG
    while True:
        process, status = os.waitpid(child, options)
        if process:
            return os.waitstatus_to_exitcode(status)
        if time.monotonic() >= deadline:
            return None
        time.sleep(0.01)


def stop(child: int) -> int | None:
    """Kills a child with its group: its exit code. One in a call that does not return is left to
    itself after some seconds, and so is a set-ID program that another user may not kill."""
    for kill in (os.killpg, os.kill):
        with suppress(OSError):
            kill(child, signal.SIGKILL)
    return ended(child, time.monotonic() + STOP_SECONDS)
