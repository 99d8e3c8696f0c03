"""How a command ends: its statuses, its error lines, and never with a status that the interpreter
chose. A mistake of ours has the file and the line, and by a variable the whole traceback."""
from __future__ import annotations

import errno
import os
import sys
from collections.abc import Callable, Iterable, Sequence
from enum import IntEnum

# And not contextlib: with no memory left, CPython 3.11 was seen never to end in its import.

from aide_compare.base.escapes import encoded, guarded


class Status(IntEnum):
    """The statuses of a command itself. 0 to 7 also are those of a comparison."""

    OK = 0
    USAGE = 15
    CONFIGURATION = 17
    DEVICE = 18
    MEMORY = 22
    DATABASE = 24


class Fault(Exception):
    """Why a command cannot do its work: a status, a line, and more lines. Names of others are
    `shown` in them already."""

    def __init__(self, status: int, text: str, *more: str) -> None:
        super().__init__(text)
        self.status = status
        self.text = text
        self.more = more


class DeviceFault(Fault):
    """A Fault of the status 18: a file, a program or another host failed, or this command."""

    def __init__(self, text: str, *more: str) -> None:
        super().__init__(Status.DEVICE, text, *more)


class ReaderGone(DeviceFault):
    """Nobody reads standard output any more, as after head(1) has what it wants. Standard error has
    nothing of it."""

    def __init__(self) -> None:
        super().__init__("nobody reads standard output any more")


class Done(Exception):
    """The command has ended before its work, as after --help."""


# What may end a part of the work that a command can do without. All else is a mistake of ours.
EXPECTED = (Fault, MemoryError, OSError)
# With the value 1 this variable has a traceback printed.
DEBUG = "AIDE_COMPARE_DEBUG"
MAX_TRACE = 200  # Lines of it, and characters of each.
MAX_TRACE_LINE = 1000
MAX_EMPTY_WRITES = 3
MAX_WAITING = 1 << 18

_name = "aide-compare"
_traced: BaseException | None = None  # The last one whose traceback was printed.


def write_all(descriptor: int, data: bytes | bytearray | memoryview) -> None:
    """Writes all bytes, past Python's own buffers. A device that takes none in three calls one
    after another has failed."""
    rest = memoryview(data)
    empty_writes = 0
    while rest:
        try:
            count = os.write(descriptor, rest)
        except BrokenPipeError:
            if descriptor != 1:
                raise
            raise ReaderGone from None
        rest = rest[count:]
        empty_writes += 1
        if count:
            empty_writes = 0
        elif empty_writes == MAX_EMPTY_WRITES:
            raise OSError(errno.EIO, "the device takes no bytes")


def write_blocks(
    descriptor: int, parts: Iterable[bytes], words: str = "cannot write standard output"
) -> None:
    """Writes many parts, some at a time, past Python's own buffers. A file system of the network
    may say only when a descriptor is closed that its disk is full."""
    waiting = bytearray()
    with OSErrorAsFault(words):
        for part in parts:
            waiting += part
            if len(waiting) >= MAX_WAITING:
                write_all(descriptor, waiting)
                waiting = bytearray()
        write_all(descriptor, waiting)
        os.close(os.dup(descriptor))


def tell(*lines: str) -> None:
    """Writes lines to standard output."""
    write_blocks(1, (encoded(f"{line}\n") for line in lines))


def usage_fault(text: str) -> Fault:
    """A fault of the command line, with the help of the command that was called."""
    name = _name
    if name == "aide-compare":
        name += " --help, or aide-compare compare"  # What is no subcommand is a database.
    return Fault(Status.USAGE, text, f"try: {name} --help")


def say(text: str) -> None:
    """Writes a line with the name of the command to standard error. If that cannot be written,
    nothing else changes."""
    try:
        write_all(2, encoded(f"{_name}: {guarded(text)}\n"))
    except OSError:
        pass


def take_standard_descriptors() -> None:
    """Takes 0, 1 and 2 if they are closed, so that no file becomes one of them. Their use fails, as
    it should."""
    while (descriptor := os.open("/dev/null", os.O_PATH)) <= 2:
        os.set_inheritable(descriptor, True)
    os.close(descriptor)


def reason(error: OSError) -> str:
    """The cause of an OSError in words, without a path."""
    return error.strerror or guarded(str(error)) or type(error).__name__


class OSErrorAsFault:
    """A block in which a call of the system that fails is a Fault: `what` failed, such as "cannot
    read FILE", and the cause."""

    def __init__(self, what: str) -> None:
        self.what = what

    def __enter__(self) -> OSErrorAsFault:
        return self

    def __exit__(self, _kind: object, error: BaseException | None, _traceback: object) -> None:
        if isinstance(error, OSError):
            raise DeviceFault(f"{self.what}: {reason(error)}") from None


def fault_of(error: BaseException) -> Fault:
    """The Fault that an exception means: itself, no memory, a call of the system that failed, or a
    mistake of this program."""
    if isinstance(error, Fault):
        return error
    if isinstance(error, MemoryError):
        return Fault(Status.MEMORY, "out of memory")
    if isinstance(error, OSError):
        return DeviceFault(reason(error))
    _print_traceback(error)
    text = f"{type(error).__name__}: {guarded(str(error))[:300]}{_place_of(error)}"
    return DeviceFault(f"a fault of this command: {text}")


def _place_of(error: BaseException) -> str:
    """The file and the line of the last frame, as in " (show/brief.py:63)"; "" if there is none."""
    place = ""
    trace = error.__traceback__
    while trace is not None:
        parts = trace.tb_frame.f_code.co_filename.split("/")
        place = f" ({guarded('/'.join(parts[-2:]))}:{trace.tb_lineno})"
        trace = trace.tb_next
    return place


def _print_traceback(error: BaseException) -> None:
    """Writes the frames of a mistake of ours to standard error, once, if a variable asks for it."""
    global _traced
    if os.environ.get(DEBUG) != "1" or error is _traced:
        return
    _traced = error
    import traceback

    lines = "".join(traceback.format_exception(type(error), error, error.__traceback__))
    for line in lines.splitlines()[-MAX_TRACE:]:
        say(line[:MAX_TRACE_LINE])


def why_of(error: BaseException) -> str:
    return fault_of(error).text


Main = Callable[[Sequence[str]], int]


def status_of(work: Callable[[], int]) -> int:
    """The status with which work ends. What ends it otherwise is said."""
    try:
        return work()
    except Done:
        return Status.OK
    except ReaderGone as gone:
        return gone.status
    except OSError as error:
        text = "a call of the system failed"
        if isinstance(error.filename, (str, bytes)):
            text += f": {guarded(os.fsdecode(error.filename))}"
        say(f"{text}: {reason(error)}")
        return Status.DEVICE
    except BaseException as error:  # Also KeyboardInterrupt, SystemExit and RecursionError.
        fault = fault_of(error)
        for text in (fault.text, *fault.more):
            say(text)
        return fault.status


def _run(main: Main) -> int:
    take_standard_descriptors()
    import signal

    if signal.getsignal(signal.SIGINT) is signal.default_int_handler:
        # ^C ends the command by its signal, without a traceback.
        signal.signal(signal.SIGINT, signal.SIG_DFL)
    signal.signal(signal.SIGCHLD, signal.SIG_DFL)  # What is ignored stays so in a program.
    status = main(sys.argv[1:])
    for stream in (sys.stdout, sys.stderr):
        if stream is not None:
            stream.flush()
    return status


def called(name: str) -> None:
    """From now on error lines begin with this name."""
    global _name
    _name = name


def command(name: str, main: Main) -> int:
    """Runs `main(arguments)` and returns the status with which the command ends."""
    called(name)
    return status_of(lambda: _run(main) & 255)
