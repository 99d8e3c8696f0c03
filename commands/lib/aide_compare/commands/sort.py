"""aide-compare sort: a database in path order, whatever its size, in little memory."""
from __future__ import annotations

import os
from collections.abc import Iterator, Sequence

from aide_compare.base.database import MAX_LINE, Kind, Layout, refuse_terminal
from aide_compare.base.ending import Fault, Status, say, write_blocks
from aide_compare.base.escapes import shown
from aide_compare.base.files import reopened
from aide_compare.base.options import MAX_SIZE, QUIET, Request, Operand, field
from aide_compare.base.parser import Help, read
from aide_compare.base.paths import path_of
from aide_compare.base.rows import Rows
from aide_compare.compare.unpack import Copy, copy_database

BLOCK = 1 << 16
MAX_NAMED = 100
# The parts of a database, in their order.
BEFORE = 0
ENTRIES = 1
AFTER = 2
SCHEMA = "create table lines (part integer, path_key blob, line blob)"
# How many entries there are, and how many have to come before the one above them.
BREAKS = f"""
select count(*), ifnull(sum(path_key < above), 0) from (
    select path_key, lag(path_key) over (order by rowid) as above from lines where part = {ENTRIES}
)"""
IN_ORDER = "select line from lines order by part, path_key, rowid"
REPEATED = f"""
select path_key from lines where part = {ENTRIES}
group by path_key having count(*) > 1 order by path_key"""

HELP = Help(
    name="aide-compare sort",
    usage="%(prog)s [OPTIONS] [FILE]",
    description="""\
Writes a database in path order, as aide-compare needs it, to standard output.

AIDE itself always writes path order. A database straight from AIDE that is out of order is
damaged, for example by a full disk: make it anew. Sort only what another tool wrote or merged.""",
    epilog="""\
Status: 0 sorted; 24 a path is there twice, or this is no database; 15, 18, 22: see
aide-compare(1).""",
)
ADVICE = (
    "AIDE itself writes path order: if this database is straight from AIDE, it is damaged (was the"
    " disk full?), so make it anew; sort only what another tool wrote or merged"
)


class SortRequest(Request):
    """What the options ask for."""

    is_quiet: bool = field(QUIET, help="do not print how many lines were out of order")
    path: str = field(
        Operand(
            "FILE",
            "the database, plain or compressed with gzip; standard input if it is left out, and"
            " for -",
            nargs="?",
            default="-",
        )
    )
    max_size: int = field(
        MAX_SIZE, default=1 << 36, help="refuse a database of more bytes unpacked (64G)"
    )


def lines_of(copy: Copy) -> Iterator[tuple[int, bytes, bytes]]:
    """The lines of a database, each with the key by which it is put in order: those before the
    entries, the entries, and those from the end on."""
    layout = Layout()
    number = 0
    with open(reopened(copy.fd, os.O_RDONLY), "rb", BLOCK) as file:
        while line := file.readline(MAX_LINE + 2):
            number += 1
            if len(line.rstrip(b"\n")) > MAX_LINE:
                raise Fault(Status.DATABASE, f"line {number}: more than {MAX_LINE} bytes")
            kind = layout.kind_of(line)
            if kind is Kind.ENTRY:
                yield ENTRIES, key_in(layout, number, line), line
            else:
                yield AFTER if layout.is_over else BEFORE, b"", line
    if not layout.is_over:
        raise Fault(Status.DATABASE, "no @@end_db")


def key_in(layout: Layout, number: int, line: bytes) -> bytes:
    """The key of the entry in a line."""
    if not layout.columns:
        raise Fault(Status.DATABASE, f"line {number}: an entry before @@db_spec, or no column name")
    key = layout.key_of(line)
    if key is None:
        raise Fault(Status.DATABASE, f"line {number}: no path")
    if not line.endswith(b"\n"):
        raise Fault(Status.DATABASE, "no @@end_db")
    return key


def say_repeated(rows: Rows) -> bool:
    """Names the paths that stand twice, the first of them. Whether there are any."""
    count = 0
    for (key,) in rows.ask(REPEATED):
        count += 1
        if count <= MAX_NAMED:
            say(f"appears twice: {shown(path_of(key))}")
    if count > MAX_NAMED:
        say(f"more paths that appear twice: {count - MAX_NAMED}")
    return count > 0


def sort(request: SortRequest) -> int:
    """Writes the database in path order, and says what was out of order. Returns the status."""
    refuse_terminal()
    rows = Rows(SCHEMA, 4 * request.max_size + BLOCK)
    path = request.path
    if path == "-":
        path = "/dev/stdin"
    copy = copy_database("given", path, request.max_size)
    rows.do_all("insert into lines values (?, ?, ?)", lines_of(copy))
    write_blocks(1, (line for (line,) in rows.ask(IN_ORDER)))
    if not request.is_quiet:
        count, breaks = next(rows.ask(BREAKS))
        say(f"out of order: {breaks} of {count} lines")
        if breaks:
            say(ADVICE)
    if say_repeated(rows):
        return Status.DATABASE
    return Status.OK


def main(arguments: Sequence[str]) -> int:
    return sort(read(SortRequest, arguments, HELP))
