"""What is run, and how its devices fail: the numbers of a line of aide_planned's input, in their
order. A text is given as its bytes. None is the greatest number, which plans nothing."""
from __future__ import annotations

import enum
from typing import Any, NamedTuple, Optional

# A number that may stand for nothing.
Number = Optional[int]
# How many bytes a device moves at a time: few, and near the size of a chunk.
PACES = (1, 7, 4095, 4096, 4097)
LINE_LIMIT, BYTE_LIMIT = 65536, 1048576


class Desk(NamedTuple):
    """The room of a desk, and which allocation is refused, counted from 0: this one alone, or all
    from it on."""

    room: Number = None
    refused: Number = None
    for_good: bool = False


class Limits(NamedTuple):
    line: int = LINE_LIMIT
    bytes: int = BYTE_LIMIT


class Reader(NamedTuple):
    """How a text is given: so many bytes at a time, until a read fails after `sound` bytes, once
    or for good; or a byte follows it for ever."""

    pace: int = 4096
    sound: Number = None
    once: bool = False
    endless: Number = None


class Side(NamedTuple):
    """How a database is given. Openings are counted from 1: from `changed_from` on there is another
    text, and from `changed_until` on the first one again; `refused` is refused, and the reader's
    failure is that of `planned`."""

    text: bytes = b""
    changed_from: Number = None
    changed_until: Number = None
    other_text: bytes = b""
    refused: Number = None
    planned: Number = None
    reader: Reader = Reader()

    def broken(self, opening: int, sound: int, once: bool) -> Side:
        return self._replace(planned=opening, reader=Reader(sound=sound, once=once))

    def paced(self, pace: int) -> Side:
        return self._replace(reader=Reader(pace))


class Memory(NamedTuple):
    """A sink in memory, of which one allocation is refused, counted from 0."""

    refused: Number = None
    kind: int = 0

    def numbers(self) -> tuple[Any, ...]:
        return self.kind, self.refused


class Writer(NamedTuple):
    """A sink over a writer that takes so many bytes at a time, and stumbles after `sound` bytes: it
    fails or takes nothing, once or for good. With a page the bytes are gathered before it."""

    pace: Number = None
    sound: Number = None
    takes_nothing: bool = False
    flush_fails: bool = False
    once: bool = False
    has_page: bool = False

    def numbers(self) -> tuple[Any, ...]:
        return 2 if self.has_page else 1, *self[:5]


class Kind(enum.IntEnum):
    """What is run over databases."""

    REPORT = 0
    HEADLINE = 1
    LINES = 2


class Run(NamedTuple):
    """A run over two databases, or over four and a list; with `again` once more without a failure
    on the same desks."""

    old: Side
    new: Side
    kind: Kind = Kind.REPORT
    options: bytes = b""
    trusted_old: Side = Side()
    trusted_new: Side = Side()
    list: bytes = b""
    desk: Desk = Desk()
    again: bool = False
    limits: Limits = Limits()
    sink: Memory | Writer = Writer()

    def with_sides(self, sides: dict[str, Side]) -> Run:
        """The same run with other plans for some databases."""
        return Run(**{**self._asdict(), **sides})

    def numbers(self) -> tuple[Any, ...]:
        sides = (self.old, self.new, self.trusted_old, self.trusted_new)
        texts = (self.options, self.list)
        plan = (self.desk, self.again, int(self.kind), *texts, self.limits)
        return (*plan, *sides, *self.sink.numbers())


class Cursor(NamedTuple):
    """A database that a cursor reads to its end or its fault, as one of the two sides."""

    text: bytes
    reader: Reader = Reader()
    limits: Limits = Limits()
    desk: Desk = Desk()
    again: bool = False
    is_new: bool = False

    def numbers(self) -> tuple[Any, ...]:
        return self.desk, self.again, self.is_new, self.limits, self.text, self.reader


class Call(enum.IntEnum):
    """The call that runs a session."""

    SESSION = 0
    SESSION_ON = 1
    RUN_PROGRAM = 2
    LINES_SESSION_ON = 3
    RUN_LINES_PROGRAM = 4


class Session(NamedTuple):
    """A session over files in memory: its arguments behind the program's name, and the files."""

    words: list[bytes]
    files: dict[bytes, bytes]
    trusted: dict[bytes, bytes] = {}
    call: Call = Call.SESSION
    out: Memory | Writer = Writer()
    err: Writer = Writer()

    def numbers(self) -> tuple[Any, ...]:
        words = (b"aide", *self.words)
        sites = [(len(files), *files.items()) for files in (self.files, self.trusted)]
        return int(self.call), len(words), words, *sites, *self.out.numbers(), self.err[:5]


class Configuration(NamedTuple):
    """A configuration that is read twice, with an allocation refused."""

    file: bytes
    before: bytes = b""
    after: bytes = b""
    is_compared: bool = False
    refused: Number = None

    def numbers(self) -> tuple[Any, ...]:
        texts = (self.before, self.file, self.after)
        return Desk(refused=self.refused), self.is_compared, texts


class Groups(NamedTuple):
    """Calls of groups, with an allocation refused: the definition of a name by an expression, the
    look-up of a name, the value of an expression."""

    calls: list[tuple[Any, ...]]
    refused: Number = None

    def numbers(self) -> tuple[Any, ...]:
        return Desk(refused=self.refused), *self.calls


def defined(name: bytes, expression: bytes) -> tuple[Any, ...]:
    return 0, name, expression


def looked_up(name: bytes) -> tuple[Any, ...]:
    return 1, name


def evaluated(expression: bytes) -> tuple[Any, ...]:
    return 2, expression


class Change(NamedTuple):
    """The attributes of a changed entry and those of the report options, each as an expression."""

    old: bytes
    new: bytes
    changed: bytes
    added_ignored: bytes = b"E"
    removed_ignored: bytes = b"E"
    changed_ignored: bytes = b"E"
    forced: bytes = b"E"

    def numbers(self) -> tuple[Any, ...]:
        return tuple(self)
