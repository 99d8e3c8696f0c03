"""The changes of all hosts, in one table: each change once, with the hosts that have it.

Two hosts have the same change if path, kind, type, severity and the group of its owner are the
same, and what changed and its new values too. Values that are of one host do not count: times,
inodes, and what the file system makes of a file.
"""
from __future__ import annotations

import hashlib
import json
from collections.abc import Iterator, Sequence

from aide_compare.base.rows import Rows
from aide_compare.base.words import SEVERITIES, SIDES
from aide_compare.changes.severity import RANKS, Severity
from aide_compare.changes.table import ORDER_OF_PART as ORDER_ON_HOST
from aide_compare.changes.table import Questions
from aide_compare.changes.weighing import Weights
from aide_compare.hosts.report_values import SharedChange
from aide_compare.lines.attributes import FORMS
from aide_compare.lines.change import ChangeLine, Fields
from aide_compare.lines.reader import HEX
from aide_compare.lines.rights import differing, without
from aide_compare.show.digest import MAIL

OWN = frozenset(["Bcount", "Atime", "Mtime", "Ctime", "Inode", "Linkcount"])
MEMBERS = frozenset("kind path path_hex summary type old new".split())
# The changes of each host: what makes one the same as others, the digest of its old values, the
# attributes that are of the host, and its line, which the first of those that are the same has.
# Only these first ones have an index meanwhile: where hosts are alike it is small, and stays in
# memory. That of all is made when all are there.
FOUND = """
create table found (
    host integer, path_key blob, directory blob, same blob, kind text, owners integer,
    rank integer, old blob, own text, line blob
)"""
FIRST = "create unique index first on found (same) where line is not null"
INDEX = "create index found_same on found (same, host)"
INSERT = """
insert into found values (
    ?1, ?2, ?3, ?4, ?5, ?6, ?7, ?8, ?9,
    case
        when exists (select 1 from found where same = ?4 and line is not null) then null else ?10
    end
)"""
# Each change once, and of the hosts that have it the one with the fewest changes, against which it
# counts.
SHARED = f"""
create table shared (
    place integer primary key, same blob, path_key blob, directory blob, kind text,
    owners integer, rank integer, hosts integer, host integer, is_listed integer default false,
    level integer as (rank / {RANKS})
)"""
GATHER = """
with
    loads as (select host, count(*) as load from found group by host),
    ranked as (
        select same, path_key, directory, kind, owners, rank, host,
            count(*) over (partition by same) as hosts,
            row_number() over (partition by same order by load, found.rowid) as turn
        from found join loads using (host)
    )
insert into shared (same, path_key, directory, kind, owners, rank, hosts, host)
select same, path_key, directory, kind, owners, rank, hosts, host
from ranked where turn = 1 order by path_key, same"""
SAME = """
select host, old, own, line, rank from found
where same = (select same from shared where place = ?) order by host"""
# What the fewest hosts have is read first.
ORDER_OF_SHARED = f"hosts, {ORDER_ON_HOST}"
# What some leave goes to the first of each host before all others, and of a host to the first of
# each directory.
OF_HOSTS = Questions(
    sizes="""
select level, owners, count(*), min(count(*), sum(turn <= {first}) + {named})
from (select level, owners, row_number() over (partition by level, owners, host) as turn
    from shared)
group by 1, 2""",
    in_order=f"""
select place, null, host from shared where level = ? and owners = ?
order by row_number() over (partition by host, directory order by {ORDER_OF_SHARED})
    > {MAIL.first}, {ORDER_OF_SHARED}""",
    most="""
select host, count(*) from shared where level = ? and owners = ? and not is_listed
group by 1 order by 2 desc, 1 limit ?""",
    turn="update shared set is_listed = not is_listed where place = ?",
)
LEVELS = "select level, count(*) from shared group by 1"


def digest_of(*values: object) -> bytes:
    return hashlib.sha256(repr(values).encode()).digest()[:16]


class Fleet:
    """Takes the changes of all hosts, one host after the other, and finds those that are the
    same."""

    def __init__(self, names: Sequence[str]) -> None:
        self.names = names
        self.severity = Severity()
        self.weights = Weights()
        self.table = Rows(FOUND)
        self.table.do(FIRST)
        self.table.do(SHARED)

    def add(self, host: int, change: ChangeLine) -> None:
        """Takes a change of the host with this number."""
        known = self.weights.of(change)
        rank = self.severity.rank(change.path, known.results)
        fields = differing(change.fields)
        word = fields.get("type", "Entry")
        own = OWN
        if word == "Directory":
            own = OWN | {"Size"}  # The size of a directory is one of these values, too.
        old, new = (fields.get(side, {}) for side in SIDES)
        labels = {name.removesuffix(HEX) for name in (*old, *new)}
        what = (change.path, change.kind, word, rank // RANKS, known.owners)
        row = (
            host,
            change.key,
            change.path.rpartition(b"/")[0],
            digest_of(what, sorted(labels - own), without(new, own)),
            change.kind,
            known.owners,
            rank,
            digest_of(without(old, own)),
            ",".join(labels & own),
            change.line,
        )
        self.table.do(INSERT, *row)

    def gather(self) -> None:
        """Makes one of the changes that are the same, when all were taken."""
        self.table.do(INDEX)
        self.table.do(GATHER)

    def __len__(self) -> int:
        """How many different changes there are."""
        return int(next(self.table.ask("select coalesce(max(place), 0) from shared"))[0])

    def places(self, order: str = f"level, owners, {ORDER_OF_SHARED}") -> Iterator[int]:
        """Yields the places of all changes in an order, the one in which people read them if no
        other is given."""
        for (place,) in self.table.ask(f"select place from shared order by {order}"):
            yield place

    def shared(self, place: int, max_names: int) -> SharedChange:
        """The change at a place of the table, on some hosts, of which at most so many are named.
        Values that are of one host are shown if there is only one; of old values that are not the
        same, only the names of their attributes."""
        hosts: list[int] = []
        olds: set[bytes] = set()
        owns: set[str] = set()
        text = b""
        for host, old, own, line, rank in self.table.ask(SAME, place):
            hosts.append(host)
            olds.add(old)
            owns.update(own.split(","))
            text = line or text
        whole = differing(json.loads(text))
        fields: Fields = {name: value for name, value in whole.items() if name in MEMBERS}
        fields["severity"] = SEVERITIES[rank // RANKS]
        if len(hosts) > 1:
            blend(fields, owns)
            if len(olds) > 1:
                fields["old_various"] = [name.removesuffix(HEX) for name in fields.pop("old")]
        fields["hosts"] = len(hosts)
        fields["names"] = [self.names[host] for host in hosts[:max_names]]
        return SharedChange({"record": "change", **fields})


def blend(fields: Fields, owns: set[str]) -> None:
    """Takes the values that are of one host out of the object of a change on several."""
    fields.pop("summary", None)
    per_host = [label for label in FORMS if label in owns]
    for side in SIDES:
        if side in fields:
            fields[side] = without(fields[side], per_host)
    if per_host:
        fields["per_host"] = per_host
