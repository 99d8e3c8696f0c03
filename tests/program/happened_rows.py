"""What happened to a path here and on a trusted machine, and what accounts for it, by hand.

Below each sentence stand the old and the new entry, those of the trusted machine, and what accounts
for the change. `.` is no entry, `4755 N` a regular file with these permissions and the new content
(`O` the old one, `L` one of this host alone, `A` one that is ahead, `?` none that is known), `d 3`
a directory with three links, `l x` a link to x; other types have the letter of `ls` and
permissions. What an entry has besides follows it, and `!uid` means that AIDE was not asked for the
owner.
"""
from __future__ import annotations

import base64
from typing import NamedTuple, Optional

COLUMNS = (
    "attr perm uid gid lcount size mtime inode acl xattrs capabilities lname sha256 sha512"
).split()
# The columns that have a bit of `attr`.
BITS = {"lname": 1, "perm": 2, "uid": 3, "gid": 4, "size": 5, "mtime": 8, "inode": 9, "lcount": 11}
# Types by their bits; Linux does not have the one of `?`.
TYPES = {"p": 1, "c": 2, "?": 3, "d": 4, "-": 8, "l": 10, "s": 12}
CONTENTS = {"L": 3, "O": 5, "N": 7, "A": 9}

# The fields of an entry; None stands for no entry.
Entry = Optional[list[bytes]]


class Row(NamedTuple):
    label: str
    # The old and the new entry, and those of the trusted machine.
    entries: list[Entry]
    account: str | None


def digest(content: str, size: int) -> str:
    return base64.b64encode(bytes([CONTENTS[content]]) * size).decode()


def beginning(first: str, second: str) -> dict[str, object]:
    """What the first two words of an entry say."""
    if first == "d":
        return {"perm": "40755", "size": 4096, "lcount": second}
    if first == "l":
        return {"perm": "120777", "lname": second}
    if first.isdecimal():
        size = CONTENTS.get(second, 0)
        known = {"sha256": digest(second, 32)} if size else {}
        return {"perm": "10%04d" % int(first), "size": size, **known}
    return {"perm": "%o" % (TYPES[first[0]] << 12 | int(first[1:], 8))}


def entry(text: str) -> Entry:
    if text == ".":
        return None
    first, *words = text.split()
    second = words.pop(0) if first in "dl" or first.isdecimal() else ""
    fields: dict[str, object] = {"uid": 0, "gid": 0, "lcount": 1, "size": 1, "mtime": 1, "inode": 1}
    fields.update(beginning(first, second))
    missing = [word[1:] for word in words if word.startswith("!")]
    for word in words:
        name, is_given, value = word.partition("=")
        if is_given:
            fields[name] = value
        elif word == "sha512":
            fields[word] = digest(second, 64)
        elif word == "caps":
            fields["capabilities"] = "=ep"
    fields["attr"] = sum(1 << bit for name, bit in BITS.items() if name not in missing)
    fields.update((name, 0) for name in missing if name not in BITS)
    return [str(fields.get(column, 0)).encode() for column in COLUMNS]


def rows(text: str) -> list[Row]:
    lines = text.strip().splitlines()
    read = []
    for label, line in zip(lines[::2], lines[1::2]):
        entries, _, account = line.partition(" -> ")
        sides = [entry(each.strip()) for each in entries.split("|")]
        read.append(Row(label, sides, None if account == "nothing" else account))
    return read


# What AIDE was not asked for is equal to nothing.
UNKNOWN = rows(
    """
it was touched
    755 O | 755 O mtime=2 | . | . -> old
it was touched, and nobody knows its perm
    755 O !perm | 755 O mtime=2 !perm | . | . -> nothing
it was touched, and nobody knows its uid
    755 O !uid | 755 O mtime=2 !uid | . | . -> nothing
it was touched, and nobody knows its gid
    755 O !gid | 755 O mtime=2 !gid | . | . -> nothing
it was touched, and nobody knows its perm uid gid
    755 O !perm !uid !gid | 755 O mtime=2 !perm !uid !gid | . | . -> nothing
a directory without a known owner was touched
    d 2 !uid | d 2 mtime=2 !uid | . | . -> nothing
a program came to both, set-ID only here, and nobody knows the modes
    . | 4755 N !perm !uid !gid | . | 755 N !perm !uid !gid -> nothing
it went from both, and nobody knows its owner
    755 O !uid | . | 755 O !uid | . -> nothing
the owner is known since tonight, here and there
    755 O !uid | 755 O | 755 O !uid | 755 O -> nothing
a FIFO was touched
    p600 | p600 mtime=2 | . | . -> old
a socket was touched
    s600 | s600 mtime=2 | . | . -> old
no type of Linux
    ?600 | ?600 mtime=2 | . | . -> nothing
no type of Linux came to both
    . | ?600 | . | ?600 -> nothing
a device was touched
    c600 | c600 mtime=2 | . | . -> nothing
"""
)

# What stood there, or did not happen there.
STOOD = rows(
    """
it changed, and was so there
    644 O | 644 N | 644 N | 644 N -> nothing
it came, and was there
    . | 4755 N | 4755 N | 4755 N -> nothing
it came, and was touched there
    . | 644 N | 644 N mtime=2 | 644 N -> nothing
it came, and another one there
    . | 644 N | . | 644 L -> nothing
it went, and is still there
    644 O | . | 644 O | 644 O -> nothing
it went, and was never there
    644 O | . | . | . -> nothing
it went, and came there
    644 O | . | . | 644 O -> nothing
it went, and one without a digest there
    644 ? | . | 644 ? | . -> nothing
it went, and one with another mode there
    4755 O | . | 755 O | . -> nothing
it changed, and there its digest is known since tonight
    644 O | 644 N | 644 ? size=7 | 644 N -> nothing
a device came to both
    . | c666 | . | c666 -> nothing
a device went from both
    c666 | . | c666 | . -> nothing
a directory gets a subdirectory that there was one
    d 5 | d 6 | d 6 | d 6 -> nothing
"""
)

# What comes here did not come there by the same step: a right, a path, a content.
ATTACKS = rows(
    """
it becomes set-ID, as it stood there, where its content changed
    755 O | 4755 N | 4755 O | 4755 N -> nothing
it becomes open to all, as it stood there, where its content changed
    700 O | 755 N | 755 O | 755 N -> nothing
it becomes open to all; there it was to some
    700 O | 755 N | 711 O | 755 N -> nothing
it becomes root's and set-ID; there it was root's
    755 O uid=33 | 4755 O | 755 O | 4755 O -> nothing
it gets another content; there it got another owner
    755 L uid=7 | 755 O uid=7 | 755 O | 755 O uid=7 -> nothing
it gets another group; there another mode
    2755 O gid=9 | 755 O | 2755 O | 755 O -> nothing
it loses an access list, as it was there, where its content changed
    644 O acl=x | 644 N | 644 O | 644 N -> nothing
a set-ID program comes; there its content changed
    . | 4755 N | 4755 O | 4755 N -> nothing
it comes; there its links are counted since tonight
    . | 4755 O | 4755 O !lcount | 4755 O -> nothing
it becomes set-ID; there it comes so
    755 O | 4755 O | . | 4755 O -> nothing
it becomes set-ID; there its links are counted since tonight
    755 O | 4755 O | 4755 O !lcount | 4755 O -> nothing
it becomes set-ID; there its mode is known since tonight
    755 O | 4755 O | 4755 O !perm | 4755 O -> nothing
it gets the content that stood there, where another digest is known since tonight
    644 L sha512 | 644 O sha512 | 644 O | 644 O sha512 !sha256 -> nothing
it gets capabilities, which are known there since tonight, as their attribute was before
    755 O | 755 O xattrs=1 caps | 755 O xattrs=1 | 755 O xattrs=1 caps -> nothing
a file becomes a link; there a link got another target
    644 L | l new | l old | l new -> nothing
a link gets the target that stood there, and is known since tonight
    l local | l old | l 0 | l old -> nothing
a directory gets a subdirectory; there it was touched
    d 2 | d 3 | d 3 mtime=5 | d 3 -> nothing
a directory gets a subdirectory; there its links are counted since tonight
    d 2 | d 3 | d 3 !lcount | d 3 -> nothing
it changed; there it was touched
    755 O | 755 N | 755 N inode=3 | 755 N -> nothing
"""
)

# What stays silent beside a trusted machine, though it may be an attack.
TOLD = rows(
    """
capabilities come here, which are known there since tonight
    755 O | 755 O caps | 755 O | 755 O caps -> trusted
the content of a file that only root reads becomes the one that came there
    600 L | 600 N | 600 O | 600 N -> trusted
a link leads where the one there leads since tonight
    l local | l new | l old | l new -> trusted
a content becomes that of a file that came there with the same rights
    755 L | 755 N | . | 755 N -> trusted
a host that is ahead gets the content that came there
    755 A | 755 N | 755 O | 755 N -> trusted
"""
)

# Machines that do the same, each with what it had before.
BOTH = rows(
    """
a host is one version behind
    755 L | 755 N | 755 O | 755 N -> trusted
a host is one version behind, and there the sizes are the same
    755 L | 755 N | 755 O size=7 | 755 N -> trusted
a host is ahead, with the same size
    755 O size=7 | 755 N | 755 L | 755 N -> trusted
rights and content changed, from the same
    755 O | 750 N | 755 O | 750 N -> trusted
a host is one version behind, and the mode changed twice
    700 L | 755 N | 750 O | 755 N -> nothing
a package comes here, where the other was upgraded
    . | 755 N | 755 O | 755 N -> nothing
a package comes there, where this one was upgraded
    755 O | 755 N | . | 755 N -> trusted
a package comes to both
    . | 4755 N | . | 4755 N -> trusted
a package goes from both
    4755 O | . | 4755 O | . -> trusted
a package of another version goes
    755 L | . | 755 O | . -> nothing
a directory has one subdirectory less before
    d 5 | d 7 | d 6 | d 7 -> trusted
a link had another target before
    l oldest | l new | l old | l new -> trusted
a file becomes a link, which there was one
    644 L | l new | l old | l new -> nothing
a file gets a second name
    755 O | 755 O lcount=2 | 755 O | 755 O lcount=2 -> trusted
capabilities in place of set-ID
    4755 O | 755 N caps | 4755 O | 755 N caps -> trusted
capabilities in place of set-ID, and the host is two versions behind
    4755 L | 755 N caps | 755 O caps | 755 N caps -> nothing
links are counted since tonight
    755 O !lcount | 755 O | 755 O !lcount | 755 O -> trusted
the only strong digest is another one since tonight
    755 O | 755 O sha512 !sha256 | 755 O | 755 O sha512 !sha256 -> nothing
a local mode is kept
    750 O | 750 N | 755 O | 755 N -> nothing
the trusted machine has fewer digests
    755 O | 755 N | 755 O !md5 | 755 N !md5 -> trusted
"""
)
