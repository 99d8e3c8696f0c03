"""The changes of two databases as JSON lines, from both databases to the counts; and what a
configuration says.

Strings are spelled here and not by Python's `json`, which escapes other characters. The trial reads
the lines back by it.
"""
from __future__ import annotations

import hashlib
from collections.abc import Iterable
from typing import Any, NamedTuple, Union

from tests.lib.answer import Answer

from . import left_out, patterns
from .agreement import same_as
from .attributes import ATTRIBUTES, NAMES, Attribute
from .comparison import Change, compared, kind_of, shown, summary_of, type_of
from .configuration import BOOL_OPTIONS, SET_OPTIONS, Settings
from .database import Database, Entries, Entry, WITHOUT_ENTRIES, database_of, front_of
from .fields import FILE_TYPES
from .report import Counts, KINDS, counts_of, status_of
from .session import Beginning, File, Files, Form, Unread, answer_of, job_of_lines

FORMAT, FORMAT_OF_SETTINGS = 4, 3
LINES_USAGE = (
    b"aide: usage: aide_lines (-E [--trusted-old FILE --trusted-new FILE] [--without TEXT] | -D)"
    b" -c FILE [-B TEXT] [-A TEXT]"
)
# The name of a member of an object, and its value as JSON.
Member = tuple[str, bytes]
# An entry that accounts for a change, the line of a list, or nothing.
Account = Union[str, int, None]
# The rules of the empty list, and its text.
NO_LIST: tuple[list[patterns.Rule], bytes] = ([], b"")
SIDES = ("old", "new", "trusted_old", "trusted_new")
# The paths of a trusted pair that is not named.
NO_PATHS = (b"", b"")
# Many readers keep 53 bits of a number, so a greater one is a string of its digits (RFC 7493
# section 2.2).
EXACT = 2**53
# Characters that no terminal or editor shows as they are: controls, ends of lines, and those that
# turn the direction of text.
HIDDEN = [
    *range(0x20),
    *range(0x7F, 0xA0),
    0x61C,
    0x200E,
    0x200F,
    *range(0x2028, 0x202F),
    *range(0x2066, 0x206A),
]
ESCAPES = {**{code: "\\u%04x" % code for code in HIDDEN}, ord('"'): '\\"', ord("\\"): "\\\\"}


def string(text: str) -> bytes:
    return b'"' + text.translate(ESCAPES).encode() + b'"'


def number(value: int) -> bytes:
    return b"%d" % value if abs(value) < EXACT else b'"%d"' % value


def truth(value: object) -> bytes:
    return b"true" if value else b"false"


def array(values: Iterable[bytes]) -> bytes:
    return b"[" + b",".join(values) + b"]"


def object_of(members: Iterable[Member]) -> bytes:
    """An object of pairs of a name and a value that is JSON already."""
    return b"{" + b",".join(string(name) + b":" + value for name, value in members) + b"}"


def line(members: Iterable[Member]) -> bytes:
    return object_of(members) + b"\n"


def text_member(name: str, value: bytes) -> Member:
    """A string if the bytes are UTF-8, otherwise base 16 under another name."""
    try:
        return name, string(value.decode("utf-8"))
    except UnicodeDecodeError:
        return name + "_hex", string(value.hex())


def title_of_type(value: int) -> bytes:
    return string(FILE_TYPES.get(value, ("?", "Other"))[1])


def attribute_member(attribute: Attribute, value: Any) -> Member:
    """The member of a value, by the form of its attribute."""
    if attribute.form == "type":
        return attribute.detail, title_of_type(value >> 12)
    if attribute.form == "perm":
        return attribute.detail, string("%04o" % value)
    if attribute.form in ("number", "time"):
        return attribute.detail, number(value)
    if attribute.form == "link" and value is None:
        return attribute.detail, b"null"
    if attribute.form in ("link", "opaque"):
        return text_member(attribute.detail, value)
    return attribute.detail, string(value.hex())


def side_members(name: str, entry: Entry | None, names: set[str]) -> list[Member]:
    """What one side has of these attributes, as a member; nothing if it has no entry."""
    if entry is None:
        return []
    wanted = [
        attribute for attribute in ATTRIBUTES if attribute.name in names and attribute.name in entry
    ]
    return [
        (
            name,
            object_of([attribute_member(attribute, entry[attribute.name]) for attribute in wanted]),
        )
    ]


def account_members(account: Account) -> list[Member]:
    """What accounts for a change: an entry, or the line of a list by its number."""
    if account is None:
        return []
    if isinstance(account, int):
        return [("left_out", number(account))]
    return [("same_as", string(account))]


def change_line(change: Change, account: Account, settings: Settings) -> bytes:
    """The line of an added, removed or changed entry, which says what accounts for the change."""
    names = shown(change, {**settings, "report_level": "added_removed_entries"})
    kind, title = type_of(change), []
    if kind is not None:
        title = [("type", title_of_type(kind))]
    return line(
        [
            ("kind", string(kind_of(change, settings) or "")),
            text_member("path", change.path),
            ("summary", string(summary_of(change, settings))),
        ]
        + account_members(account)
        + title
        + side_members("old", change.old, names)
        + side_members("new", change.new, names)
    )


class Source(NamedTuple):
    path: bytes
    text: bytes
    database: Database


# A database of a trusted pair that is not named.
NO_ENTRIES = b"@@begin_db\n@@db_spec name attr\n@@end_db\n"
NO_SOURCE = Source(b"", NO_ENTRIES, database_of(NO_ENTRIES))


def read_of(source: Source) -> bytes:
    """What is known of a database at its end: its digest and the places of skipped columns."""
    digest = hashlib.sha256(source.text).hexdigest()
    places = array([number(place) for place in source.database.skipped])
    return object_of([("sha256", string(digest)), ("skipped", places)])


def first_line(sources: list[Source]) -> bytes:
    """The number of the format and the paths."""
    return line(
        [("format", number(FORMAT))]
        + [text_member(side, source.path) for side, source in zip(SIDES, sources)]
    )


def change_lines(changes: list[Change], accounts: list[Account], settings: Settings) -> bytes:
    return b"".join(
        change_line(change, account, settings) for change, account in zip(changes, accounts)
    )


def numbers_of(new: Database, counts: Counts, accounts: list[Account]) -> list[Member]:
    """Members of the last line with the numbers of entries, and of changes by their accounts."""
    numbers = [("total", len(new.entries))]
    numbers += [(kind, counts[kind]) for kind in KINDS]
    numbers.append(("same_as_old", accounts.count("old")))
    numbers.append(("same_as_trusted", accounts.count("trusted")))
    numbers.append(("left_out", sum(isinstance(account, int) for account in accounts)))
    numbers.append(("others", accounts.count(None)))
    return [(name, number(value)) for name, value in numbers]


class Parts(NamedTuple):
    """The lines over the databases: the first, those of the changes, the last; and the status."""

    first: bytes
    changes: bytes
    last: bytes
    status: int


def account_of(
    change: Change, trusted: list[Entries], rules: list[patterns.Rule], measures: list[bool]
) -> Account:
    """What accounts for a change, by the entries of a trusted pair and by the rules of a list."""
    same = same_as(change.old, change.new, *(entries.get(change.path) for entries in trusted))
    if same is not None:
        return same
    return left_out.line_of(rules, left_out.Change(*change, *measures)) or None


def parts_over(sources: list[Source], settings: Settings) -> Parts:
    """The lines over two databases, the old and the new one of a trusted pair, and a list."""
    old, new, *trusted = sources
    rules, text = settings.get("list", NO_LIST)
    changes = compared(old.database.entries, new.database.entries)
    counts = counts_of(changes, settings)
    status = status_of(counts)
    listed = [change for change in changes if kind_of(change, settings)]
    maps = [source.database.entries for source in trusted]
    measures = [left_out.measures_of(source.text) for source in (old, new)]
    accounts = [account_of(change, maps, rules, measures) for change in listed]
    end = [("end", truth(True))]
    end += [(side, read_of(source)) for side, source in zip(SIDES, sources)]
    end += numbers_of(new.database, counts, accounts)
    digest = hashlib.sha256(text).hexdigest()
    end.append(("list", object_of([("sha256", string(digest))])))
    end.append(("status", number(status)))
    changed = change_lines(listed, accounts, settings)
    return Parts(first_line(sources), changed, line(end), status)


def sources_over(texts: list[bytes], databases: list[Database], settings: Settings) -> list[Source]:
    """All four databases, by the texts and the maps of those that are named. A trusted pair that is
    not named has no path and no entry."""
    trusted = settings.get("trusted") or NO_PATHS
    paths = [settings["database_in"], settings["database_new"], *trusted]
    sources = [Source(*each) for each in zip(paths, texts, databases)]
    return sources + [NO_SOURCE] * (len(paths) - len(sources))


def lines_of(
    old: Database, new: Database, texts: list[bytes], settings: Settings
) -> tuple[bytes, int]:
    """The lines over the texts of all databases that are named, and the status of the report."""
    databases = [old, new, *map(database_of, texts[2:])]
    parts = parts_over(sources_over(texts, databases, settings), settings)
    return parts.first + parts.changes + parts.last, parts.status


def begun_lines(given: list[File], settings: Settings) -> bytes:
    """What may have gone out before a fault: a beginning of the first line and the lines of the
    entries before the first fault of each text, and no last line. Nothing goes out if a database is
    missing."""
    fronts = []
    for text in given:
        if text is None:
            return b""
        fronts.append(WITHOUT_ENTRIES if isinstance(text, Unread) else front_of(text))
    databases = [database_of(front) for front in fronts]
    parts = parts_over(sources_over(fronts, databases, settings), settings)
    return Beginning(parts.first + parts.changes)


def settings_line(settings: Settings) -> bytes:
    """What a configuration says, as one object with the names of its options."""
    members = [("format", number(FORMAT_OF_SETTINGS))]
    for name in ("database_in", "database_new"):
        path = settings[name]
        members.append((name, b"null") if path is None else text_member(name, path))
    members.append(("report_level", string(settings["report_level"])))
    members += [(name, truth(settings[name])) for name in BOOL_OPTIONS]
    for name in SET_OPTIONS:
        members.append(
            (name, array([string(attribute) for attribute in NAMES if attribute in settings[name]]))
        )
    return line(members)


LINES = Form(LINES_USAGE, lines_of, begun_lines, settings_line, job_of_lines)


def lines_answer_of(words: list[bytes], files: Files) -> Answer:
    """The answer of the program that writes lines in place of the report."""
    return answer_of(words, files, LINES)
