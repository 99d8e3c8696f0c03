"""The text of a report."""
from __future__ import annotations

import base64
import hashlib

from .attributes import ATTRIBUTES, Attribute
from .comparison import Change, compared, is_from, kind_of, shown, summary_of, title_of
from .configuration import Settings
from .database import Database, Entry
from .fields import FILE_TYPES
from .texts import pieces_of, printed

# How many changes there are of each kind.
Counts = dict[str, int]
RULE = b"-" * 51
KINDS = ["added", "removed", "changed"]
SUMMARY_WIDTH, NAME_WIDTH, PIECE_WIDTH = 25, 10, 32


def digest_text(value: bytes, settings: Settings) -> bytes:
    return value.hex().encode() if settings["report_base16"] else base64.b64encode(value)


def value_text(attribute: Attribute, entry: Entry | None, settings: Settings) -> bytes:
    """The value of an attribute as the details print it, nothing where the entry lacks it."""
    if entry is None or attribute.name not in entry:
        return b""
    value = entry[attribute.name]
    if attribute.form == "type":
        return FILE_TYPES.get(value >> 12, ("?", "Other"))[1].encode()
    if attribute.form == "perm":
        return b"%04o" % value
    if attribute.form in ("number", "time"):
        return b"%d" % value
    if attribute.form in ("link", "opaque"):
        return printed(value or b"")
    return digest_text(value, settings)


def titled(title: bytes) -> list[bytes]:
    return [b"", RULE, title, RULE]


def attribute_lines(attribute: Attribute, change: Change, settings: Settings) -> list[bytes]:
    """The lines of an attribute in the details: pieces of both values beside one another."""
    old, new = (
        pieces_of(value_text(attribute, entry, settings)) for entry in (change.old, change.new)
    )
    lines = []
    for index in range(max(len(old), len(new), 1)):
        label = (
            b"  " + attribute.detail.encode().ljust(NAME_WIDTH) + b": " if index == 0 else b" " * 14
        )
        left, right = (b"".join(pieces[index : index + 1]) for pieces in (old, new))
        lines.append(label + left.ljust(PIECE_WIDTH) + b" | " + right)
    return lines


def head(differs: int) -> list[bytes]:
    return [b"AIDE found %sdifferences between the two databases." % (b"" if differs else b"NO ")]


def summary(total: int, counts: Counts) -> list[bytes]:
    labels = [
        (b"Total number of entries:", total),
        (b"Added entries:", counts["added"]),
        (b"Removed entries:", counts["removed"]),
        (b"Changed entries:", counts["changed"]),
    ]
    return [b"", b"Summary:"] + [
        b"  " + label.ljust(SUMMARY_WIDTH) + b"%d" % number for label, number in labels
    ]


def entry_line(change: Change, settings: Settings) -> bytes:
    label = kind_of(change, settings) or ""
    if settings["report_summarize_changes"]:
        label = summary_of(change, settings)
    return label.encode() + b": " + printed(change.path)


def lists(changes: list[Change], settings: Settings) -> list[bytes]:
    """The lists of entries, one for each kind or one for all."""
    sections = [(kind.capitalize() + " entries:", [kind]) for kind in KINDS]
    if not settings["report_grouped"]:
        sections = [("Added, removed and changed entries:", KINDS)]
    lines = []
    for title, kinds in sections:
        entries = [
            entry_line(change, settings) for change in changes if kind_of(change, settings) in kinds
        ]
        if entries:
            lines += titled(title.encode()) + [b""] + entries
    return lines


def details(changes: list[Change], settings: Settings) -> list[bytes]:
    lines = []
    for change in changes:
        names = shown(change, settings)
        if names:
            lines += [b"", title_of(change).encode() + b": " + printed(change.path)]
            for attribute in ATTRIBUTES:
                if attribute.name in names:
                    lines += attribute_lines(attribute, change, settings)
    return titled(b"Detailed information about changes:") + lines if lines else []


def databases(texts: list[bytes], settings: Settings) -> list[bytes]:
    lines = titled(b"The attributes of the databases:") + [b""]
    for label, path, text in zip(
        (b"Old", b"New"), (settings["database_in"], settings["database_new"]), texts
    ):
        lines.append(label + b" database: " + printed(path))
        for index, piece in enumerate(
            pieces_of(digest_text(hashlib.sha256(text).digest(), settings))
        ):
            lines.append((b"  SHA256    : " if index == 0 else b" " * 14) + piece)
    return lines


def counts_of(changes: list[Change], settings: Settings) -> Counts:
    kinds = [kind_of(change, settings) for change in changes]
    return {kind: kinds.count(kind) for kind in KINDS}


def status_of(counts: Counts) -> int:
    return (counts["added"] > 0) + 2 * (counts["removed"] > 0) + 4 * (counts["changed"] > 0)


def report_of(
    old: Database, new: Database, texts: list[bytes], settings: Settings
) -> tuple[bytes, int]:
    """The report over two databases and their texts, and its status."""
    changes = compared(old.entries, new.entries)
    counts = counts_of(changes, settings)
    status = status_of(counts)
    if settings["report_quiet"] and not status:
        return b"", status
    lines = head(status)
    if is_from("summary", settings):
        lines += summary(len(new.entries), counts)
    if is_from("list_entries", settings):
        lines += lists(changes, settings)
    if is_from("changed_attributes", settings):
        lines += details(changes, settings)
    if is_from("database_attributes", settings):
        lines += databases(texts, settings)
    return b"".join(line + b"\n" for line in lines), status
