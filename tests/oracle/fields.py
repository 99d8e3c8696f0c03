"""What a field of a database means, by the form of its column."""
from __future__ import annotations

import base64
import binascii
import re
from typing import Any

from .attributes import Attribute

# What a field means, by the form of its attribute: a number or bytes, or None for a link without a
# name; none at all if the entry has no such attribute.
Values = list[Any]

# A sign, noughts that do not count, and the other digits.
NUMBER = re.compile(rb"(-?)(?=[0-9])0*([0-9]*)")
OCTAL = re.compile(rb"[0-7]+")
ESCAPE = re.compile(rb"%([0-9A-Fa-f]{2})")
LEAST, GREATEST, DIGITS = -(2**63), 2**64 - 1, 20
LONGEST_TIME = 44
TYPE_BITS, PERMISSION_BITS = 0o170000, 0o7777

# The types of files by their bits: the letter, the title and the value in the details.
FILE_TYPES = {
    0o10: ("f", "File"),
    0o04: ("d", "Directory"),
    0o12: ("l", "Link"),
    0o02: ("c", "Character device"),
    0o06: ("b", "Block device"),
    0o01: ("p", "FIFO"),
    0o14: ("s", "Socket"),
}


class Meaningless(Exception):
    """The kind of fault of a field that has not the form of its column."""


def decoded(field: bytes) -> bytes:
    """A name with its escapes decoded; a percent sign without two digits stands for itself."""
    return ESCAPE.sub(lambda found: bytes([int(found.group(1), 16)]), field)


def number_of(field: bytes, least: int = LEAST) -> int:
    found = NUMBER.fullmatch(field)
    if (
        not found
        or len(found.group(2)) > DIGITS
        or not least <= int(found.group(1) + b"0" + found.group(2)) <= GREATEST
    ):
        raise Meaningless("BadNumber")
    return int(found.group(1) + b"0" + found.group(2))


def mode_of(field: bytes) -> int:
    if not OCTAL.fullmatch(field) or int(field, 8) > 2**32 - 1:
        raise Meaningless("BadNumber")
    return int(field, 8)


def bytes_of_base64(field: bytes) -> bytes | None:
    """What standard base64 with padding stands for, None where it is none."""
    try:
        value = base64.b64decode(field, validate=True)
    except (binascii.Error, ValueError):
        return None
    return value if base64.b64encode(value) == field else None


def time_of(field: bytes) -> int:
    """Seconds, as a number or as the base64 of one."""
    text: bytes | None = field
    if not (field[:1].isdigit() or field[:1] == b"-"):
        text = bytes_of_base64(field) if len(field) <= LONGEST_TIME else None
    try:
        return number_of(text if text is not None else b"")
    except Meaningless:
        raise Meaningless("BadTime") from None


def digest_of(field: bytes, least: int, most: int) -> bytes | None:
    """The bytes of a digest, None where there is none."""
    if field == b"0":
        return None
    value = bytes_of_base64(field)
    if value is None or not least <= len(value) <= most:
        raise Meaningless("BadDigest")
    return value


def link_of(field: bytes) -> bytes | None:
    """The name that a link has, None for no link name."""
    if field == b"0":
        return None
    if field == b"0-":
        return b""
    return decoded(field[1:] if field.startswith(b"00") else field)


def values_of(attribute: Attribute, field: bytes, bits: int | None) -> Values:
    """The value of an attribute in a list of its own, an empty list where the entry lacks it."""
    has_bit = attribute.bit is None or bits is None or bits >> attribute.bit & 1
    values: Values
    if attribute.form == "type":
        bits_of_type = mode_of(field) & TYPE_BITS
        return [bits_of_type] if bits_of_type else []
    if attribute.form == "perm":
        values = [mode_of(field) & PERMISSION_BITS]
    elif attribute.form == "number":
        values = [number_of(field)]
    elif attribute.form == "time":
        values = [time_of(field)]
    elif attribute.form == "link":
        values = [link_of(field)]
    elif attribute.form == "opaque":
        return [field] if field != b"0" else []
    else:
        value = digest_of(field, *attribute.form)
        return [value] if value is not None else []
    return values if has_bit else []
