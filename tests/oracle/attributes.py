"""The table of attributes, the predefined groups, and what an expression over them means."""
from __future__ import annotations

import re
from collections.abc import Mapping
from typing import NamedTuple

Groups = Mapping[str, "frozenset[str]"]


class Attribute(NamedTuple):
    name: str
    detail: str
    column: str
    bit: int | None
    slot: str
    # How a field has it: 'type' and 'perm' (octal), 'number', 'time', 'link', 'opaque', or a
    # digest's least and greatest length.
    form: str | tuple[int, int]


ATTRIBUTES = [
    Attribute("ftype", "Type", "perm", None, "Y", "type"),
    Attribute("l", "Lname", "lname", 1, "l", "link"),
    Attribute("s", "Size", "size", 5, "Z", "number"),
    Attribute("b", "Bcount", "bcount", 10, "b", "number"),
    Attribute("p", "Perm", "perm", 2, "p", "perm"),
    Attribute("u", "UID", "uid", 3, "u", "number"),
    Attribute("g", "GID", "gid", 4, "g", "number"),
    Attribute("a", "Atime", "atime", 6, "a", "time"),
    Attribute("m", "Mtime", "mtime", 8, "m", "time"),
    Attribute("c", "Ctime", "ctime", 7, "c", "time"),
    Attribute("i", "Inode", "inode", 9, "i", "number"),
    Attribute("n", "Linkcount", "lcount", 11, "n", "number"),
    Attribute("md5", "MD5", "md5", None, "H", (16, 16)),
    Attribute("sha1", "SHA1", "sha1", None, "H", (20, 20)),
    Attribute("sha256", "SHA256", "sha256", None, "H", (32, 32)),
    Attribute("sha512", "SHA512", "sha512", None, "H", (64, 64)),
    Attribute("rmd160", "RMD160", "rmd160", None, "H", (20, 20)),
    Attribute("tiger", "TIGER", "tiger", None, "H", (1, 64)),
    Attribute("crc32", "CRC32", "crc32", None, "H", (1, 64)),
    Attribute("crc32b", "CRC32B", "crc32b", None, "H", (1, 64)),
    Attribute("haval", "HAVAL", "haval", None, "H", (1, 64)),
    Attribute("gost", "GOST", "gost", None, "H", (1, 64)),
    Attribute("whirlpool", "WHIRLPOOL", "whirlpool", None, "H", (64, 64)),
    Attribute("stribog256", "STRIBOG256", "stribog256", None, "H", (32, 32)),
    Attribute("stribog512", "STRIBOG512", "stribog512", None, "H", (64, 64)),
    Attribute("sha512_256", "SHA512/256", "sha512_256", None, "H", (32, 32)),
    Attribute("sha3_256", "SHA3-256", "sha3_256", None, "H", (32, 32)),
    Attribute("sha3_512", "SHA3-512", "sha3_512", None, "H", (64, 64)),
    Attribute("acl", "ACL", "acl", None, "A", "opaque"),
    Attribute("xattrs", "XAttrs", "xattrs", None, "X", "opaque"),
    Attribute("selinux", "SELinux", "selinux", None, "S", "opaque"),
    Attribute("e2fsattrs", "E2FSAttrs", "e2fsattrs", None, "E", "opaque"),
    Attribute("caps", "Caps", "capabilities", None, "C", "opaque"),
]
NAMES = [attribute.name for attribute in ATTRIBUTES]
EMPTY_NAMES = ["S", "I", "ANF", "ARF", "growing", "compressed"]
EXTENDED = frozenset(["acl", "selinux", "xattrs", "e2fsattrs", "caps"])
GROUPS = {
    "E": frozenset(),
    "X": EXTENDED,
    "L": frozenset(["p", "ftype", "i", "l", "n", "u", "g"]) | EXTENDED,
    "R": frozenset(["p", "ftype", "i", "l", "n", "u", "g", "s", "m", "c", "md5"]) | EXTENDED,
    ">": frozenset(["p", "ftype", "l", "u", "g", "i", "n"]) | EXTENDED,
    "H": frozenset(attribute.name for attribute in ATTRIBUTES if attribute.slot == "H"),
}

NAME = re.compile(rb"[A-Za-z0-9_>]+")
BLANK, TERM = rb"[ \t]*", rb"[ \t]*[A-Za-z0-9_>]+[ \t]*"
EXPRESSION = re.compile(TERM + rb"(?:[+-]" + TERM + rb")*")
# What an expression can begin with: blanks; or an expression, perhaps with a further sign and
# blanks.
BEGINNING = re.compile(rb"(?:" + EXPRESSION.pattern + rb"(?:[+-]" + BLANK + rb")?)|" + BLANK)
SIGNED = re.compile(rb"([+-]?)[ \t]*([A-Za-z0-9_>]+)")


def set_of_name(name: bytes, defined: Groups) -> frozenset[str] | None:
    """The set that a name means, groups of the configuration first; None if it means none."""
    text = name.decode("latin-1")
    for groups in (defined, GROUPS):
        if text in groups:
            return groups[text]
    if text in NAMES:
        return frozenset([text])
    return frozenset() if text in EMPTY_NAMES else None


def expression_fault(text: bytes, defined: Groups) -> str | None:
    """The kind of the first fault of an expression, or None; at one byte the bad byte counts."""
    beginning = BEGINNING.match(text)
    good = beginning.end() if beginning else 0
    faults = []
    if good < len(text) or not EXPRESSION.fullmatch(text):
        faults.append((good, 0, "BadExpression"))
    for name in NAME.finditer(text):
        if set_of_name(name.group(), defined) is None:
            faults.append((name.start(), 1, "UnknownAttribute"))
    return min(faults)[2] if faults else None


def meaning_of(text: bytes, defined: Groups) -> frozenset[str]:
    """The attributes of an expression without a fault: those whose last term adds them."""
    terms = [
        (sign, set_of_name(name, defined) or frozenset()) for sign, name in SIGNED.findall(text)
    ]
    meaning = set()
    for attribute in NAMES:
        signs = [sign for sign, attributes in terms if attribute in attributes]
        if signs and signs[-1] != b"-":
            meaning.add(attribute)
    return frozenset(meaning)
