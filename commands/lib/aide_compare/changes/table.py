"""The changes that are not silent, as the rows of one table. Whatever people read of many changes
is a question to it, in the one order of ORDER, and no other module writes one."""
from __future__ import annotations

from collections.abc import Iterable, Iterator
from functools import lru_cache
from typing import NamedTuple

from aide_compare.base.paths import path_of
from aide_compare.base.rows import Rows
from aide_compare.base.words import SEVERITIES
from aide_compare.changes.severity import RANKS
from aide_compare.changes.weighing import OTHERS
from aide_compare.lines.reader import embedded

SCHEMA = f"""
create table changes (
    place integer primary key, path_key blob, directory blob, kind text, owners integer,
    rank integer, user blob, recordable text, line_at integer, line_size integer,
    standing text default 'open', package text default '', is_listed integer default false,
    level integer as (rank / {RANKS})
)"""
# Changes of which nothing but the number is known: no side is root's.
BEYOND = "create table beyond (kind text, size integer)"
# How many changes there are, by what they are now. Nobody has weighed those beyond: they are high.
NUMBERS = f"""
create view numbers as
select standing, level, owners, kind, count(*) as size from changes group by 1, 2, 3, 4
union all select 'open', 0, {OTHERS}, kind, size from beyond"""
# What a change is inserted with.
ChangeRow = tuple[bytes, bytes, str, int, int, int, str, int, int]
INSERT = """
insert into changes (path_key, directory, kind, owners, rank, user, recordable, line_at, line_size)
values (?, ?, ?, ?, ?, ?, ?, ?, ?)"""
# What people read first. Of one severity that is what is root's, then what is a service's; what the
# first line of the table of severities means, such as set-ID bits; what was removed or changed
# before what was added; and then the path has the last word.
ORDER_OF_PART = "rank, kind = 'added', place"
ORDER = f"level, owners, {ORDER_OF_PART}"
LISTED = "standing = 'open'"
RECORDED = "standing = 'recorded'"
RECORD = f"update changes set {RECORDED}, package = ? where {LISTED} and place = ?"
LINE_AT = "select line_at, line_size from changes where place = ?"
COUNTS = "select standing, level, kind, sum(size) from numbers group by 1, 2, 3"
# What records could have, in steps of so many bytes of lines; or its directories in such steps.
RECORDABLE = "select line_at / ?, place, path_key, recordable from changes where recordable != ''"
DIRECTORIES = """
select sum(length(directory) + 700) over (order by directory) / ?, 0, directory, ''
from (select distinct directory from changes where recordable != '')"""
IN_KNOWN = f"{RECORDABLE} and (directory = x'01' or directory in known)"
# The packages with recorded changes, those with most of severity high first.
PACKAGES = (
    f"select package, count(*), sum(level = 0) from changes where {RECORDED}"
    " group by 1 order by 3 desc, 2 desc, 1"
)
# The first changes of a severity and a group of owners whose lines have so many bytes together.
SIZES = "select level, owners, sum(line_size) from changes group by 1, 2"
KEEP = f"""
update changes set is_listed = true where place in (
    select place from (
        select place, sum(line_size) over (order by {ORDER}) as size
        from changes where level = ? and owners = ?
    ) where size <= ?
)"""
# What is recorded, package by package.
BY_PACKAGE = f"count(*) over (partition by package) desc, package, {ORDER}"


# What open changes of one severity and one group of owners have in common.
PART = f"{LISTED} and level = ? and owners = ?"


class Questions(NamedTuple):
    """What a text asks of a table of changes."""

    # Of each severity and each group of owners how many there are, and how many come before all
    # others, if so many {first} of a group do and {named} lines count the others.
    sizes: str
    # Of one of these parts the places in their order, with the user and the group of each.
    in_order: str
    # In which groups most of those are that are not listed.
    most: str
    # Turns round whether the change at a place is listed.
    turn: str


# Those of one host: a group is a directory.
OF_CHANGES = Questions(
    sizes=f"""
select level, owners, sum(size), sum(size) from numbers where {LISTED}
group by 1, 2 having sum(size)""",
    in_order=f"select place, user, directory from changes where {PART} order by {ORDER_OF_PART}",
    most=f"""
select directory, count(*) from changes where {PART} and not is_listed
group by 1 order by 2 desc, 1 limit ?""",
    turn="update changes set is_listed = not is_listed where place = ?",
)


class Marks(NamedTuple):
    """What the commands say of a change beside its line."""

    standing: str
    severity: str = ""
    package: str = ""  # Its name and version, of a recorded change.

    @lru_cache(maxsize=1024)
    def members(self) -> bytes:
        """What is known of them, as the end of an object that has other members before."""
        known = {name: value for name, value in self._asdict().items() if value}
        return embedded(known).replace(b"{", b",", 1)


class Table(Rows):
    """Takes changes in the order of paths, and gives them in any order."""

    def __init__(self) -> None:
        super().__init__(SCHEMA)
        self.do(BEYOND)
        self.do(NUMBERS)

    def __len__(self) -> int:
        return int(next(self.ask("select coalesce(max(place), 0) from changes"))[0])

    def add(self, changes: Iterable[ChangeRow]) -> None:
        """Takes changes in the order of paths."""
        self.do_all(INSERT, changes)

    def count(self, kind: str, size: int) -> None:
        """Takes the number of some changes, and nothing else."""
        self.do("insert into beyond values (?, ?)", kind, size)

    def places(self, order: str = ORDER) -> Iterator[int]:
        """Yields the places of all changes in an order, the one in which people read them if no
        other is given."""
        for (place,) in self.ask(f"select place from changes order by {order}"):
            yield place

    def line_at(self, place: int) -> tuple[int, int]:
        """Where the line of a change begins, and its size."""
        ((at, size),) = self.ask(LINE_AT, place)
        return at, size

    def counts(self) -> Iterator[tuple[str, int, str, int]]:
        """Yields how many changes have a standing, a severity and a kind."""
        yield from self.ask(COUNTS)

    def keep_known(self, directories: Iterable[bytes]) -> None:
        """Notes the directories that records know, by their keys."""
        self.do("create table known (directory blob primary key)")
        self.do_all("insert or ignore into known values (?)", zip(directories))

    def packages(self) -> Iterator[tuple[str, int, int]]:
        """Yields the packages that have changes, how many, and how many of severity high."""
        yield from self.ask(PACKAGES)

    def high_paths(self, package: str) -> list[bytes]:
        """The paths of a package's changes of severity high."""
        high = self.paths(f"{RECORDED} and level = 0 and package = ?", package)
        return [path for path, _ in high]

    def paths(self, condition: str, *values: object) -> Iterator[tuple[bytes, str]]:
        """Yields the paths of changes in their order, and the kinds."""
        question = f"select path_key, kind from changes where {condition} order by place"
        for key, kind in self.ask(question, *values):
            yield path_of(key), kind

    def marks(self, condition: str = "true", order: str = ORDER) -> Iterator[tuple[int, Marks]]:
        """Yields the places of changes and their marks, in an order."""
        columns = "place, standing, level, package"
        question = f"select {columns} from changes where {condition} order by {order}"
        for place, standing, level, package in self.ask(question):
            yield place, Marks(standing, SEVERITIES[level], package)

    def record(self, packages: Iterable[tuple[str, int]]) -> None:
        """Notes that packages have the changes at some places, each the first that is named."""
        self.do_all(RECORD, packages)

    def forget_records(self) -> None:
        """Leaves each change open."""
        self.do("update changes set standing = 'open', package = ''")
