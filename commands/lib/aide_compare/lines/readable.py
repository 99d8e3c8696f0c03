"""The values of a change, and what they say to people in the words of the system's tools, with
bytes of others escaped.

Nothing is refused here: a value of another form, which is a ValueError of the function that decodes
it, has no text, a long text is cut, and the exact value stands beside it.
"""
from __future__ import annotations

import base64
import re
import stat
from collections.abc import Sequence
from contextlib import suppress
from typing import NamedTuple

from aide_compare.base.escapes import shown
from aide_compare.base.paths import unescaped
from aide_compare.lines.change import Change, Texts, Value, Values

# A text for people has at most so many characters; a longer one is cut, and ends with "...".
MAX_TEXT = 4000
MAX_ATTRIBUTE_NAME = 300
# The types of files in words, as reports name them.
TYPES = {
    "File": stat.S_IFREG,
    "Directory": stat.S_IFDIR,
    "Link": stat.S_IFLNK,
    "Character device": stat.S_IFCHR,
    "Block device": stat.S_IFBLK,
    "FIFO": stat.S_IFIFO,
    "Socket": stat.S_IFSOCK,
}
# An entry of a list in the long text form of acl(5); what a mask takes away of it stands behind it,
# as getfacl prints it. A name has no byte that ends it.
ACL_ENTRY = (
    rb"((?:user|group|mask|other):[^\x00-\x20:,#\x7f]{0,300}:[r-][w-][x-])"
    rb"(?:[\t ]+(#effective:[r-][w-][x-]))?"
)
MAX_ACL_ENTRIES = 400
COUNT = rb"0|[1-9][0-9]{0,5}"
TEXT = "[^\x00-\x08\x0b-\x1f\x7f]*\x00?"  # No controls but a zero byte at the end.
LABEL = rb"[^\x00-\x20\";\x7f]+\x00?"
# What would end a name or a value of a line of extended attributes is escaped in them.
NAME_ESCAPES = {ord(letter): f"\\{ord(letter):03o}" for letter in ' ";'}
QUOTED_ESCAPES = {ord('"'): "\\042"}
# The bits of linux/fs.h in the order of lsattr (e2fsprogs 1.47) and of AIDE 0.18.
_FLAG_TABLE = """
s=1 u=2 S=8 D=10000 i=10 a=20 d=40 A=80 c=4 E=800 j=4000 I=1000 t=8000 T=20000 e=80000 C=800000
x=2000000 F=40000000 N=10000000 P=20000000 V=100000 m=400
"""
FLAGS = [(pair[0], int(pair[2:], 16)) for pair in _FLAG_TABLE.split()]
KNOWN_FLAGS = sum(bit for _, bit in FLAGS)
CAPABILITIES_TEXT = rb"[a-z0-9_,=+ -]+"


class SideTexts(NamedTuple):
    """Texts for people in place of the values of both sides, by the labels of attributes."""

    old: Texts
    new: Texts


def exact_bytes(value: str | bytes) -> bytes:
    """The bytes of a value; of a text its UTF-8."""
    if isinstance(value, str):
        return value.encode("utf-8", "surrogatepass")
    return value


def _from_base64(text: bytes) -> bytes:
    """The bytes that a field has in base 64. AIDE writes no bytes as 0."""
    if text == b"0":
        return b""
    return base64.b64decode(text, validate=True)


def _cut(text: str) -> str:
    if len(text) <= MAX_TEXT:
        return text
    return f"{text[:MAX_TEXT]}..."


def _acl_entries(text: bytes) -> list[str]:
    """The entries of a list, each with what the mask leaves of it."""
    entries: list[str] = []
    if not text:
        return entries
    for line in text.rstrip(b"\n").split(b"\n", MAX_ACL_ENTRIES):
        match = re.fullmatch(ACL_ENTRY, line)
        if match is None:
            raise ValueError
        entries.append(" ".join(shown(part) for part in match.groups() if part))
    return entries


def acl_text(value: bytes) -> str:
    """Both lists of a field, `POSIX,` and both in base 64, in one line as getfacl prints them: that
    of defaults has `default:` before each entry."""
    kind, *fields = value.split(b",", 3)
    if kind != b"POSIX" or len(fields) != 2:
        raise ValueError
    words: list[str] = []
    for before, field in zip(("", "default:"), fields):
        words += [before + entry for entry in _acl_entries(_from_base64(field))]
    return _cut(", ".join(words))


def _extended_attributes(value: bytes) -> list[tuple[bytes, bytes]]:
    """The names and values of a field: their number, each name with percent escapes, each value in
    base 64."""
    number, *fields = value.split(b",")
    if not re.fullmatch(COUNT, number) or len(fields) != 2 * int(number):
        raise ValueError
    attributes = []
    for field, encoded in zip(fields[::2], fields[1::2]):
        name = unescaped(field)
        if not name:
            raise ValueError
        attributes.append((name, _from_base64(encoded)))
    return attributes


def _attribute_text(name: bytes, data: bytes) -> str:
    """The value of an attribute: what its name says that it is, else a text in quotes, else 0s and
    base 64 as getfattr has it."""
    if name == b"security.selinux" and re.fullmatch(LABEL, data):
        return shown(data.removesuffix(b"\0"), MAX_TEXT)
    with suppress(UnicodeDecodeError):
        if re.fullmatch(TEXT, data.decode()):
            return f'"{shown(data, MAX_TEXT).translate(QUOTED_ESCAPES)}"'
    return f"0s{base64.b64encode(data[:MAX_TEXT]).decode()}"


def xattrs_text(value: bytes) -> str:
    """All attributes of a field in one line: NAME: VALUE; NAME: VALUE."""
    parts = []
    length = 0
    for name, data in _extended_attributes(value):
        escaped = shown(name, MAX_ATTRIBUTE_NAME).translate(NAME_ESCAPES)
        parts.append(f"{escaped}: {_attribute_text(name, data)}")
        length += len(parts[-1])
        if length > MAX_TEXT:
            break
    return _cut("; ".join(parts))


def label_text(value: bytes) -> str:
    """A label of SELinux, which AIDE keeps in base 64."""
    return shown(_from_base64(value).removesuffix(b"\0"), MAX_TEXT)


def flags_text(value: bytes) -> str:
    """The letters of a number of flags. Flags without a letter follow as a number, so that no
    change is invisible."""
    if not value.isdigit() or len(value) > 20:
        raise ValueError
    flags = int(value)
    text = "".join(letter if flags & bit else "-" for letter, bit in FLAGS)
    unknown = flags & ~KNOWN_FLAGS
    if unknown:
        text += f" +{unknown:#x}"
    return text


def capabilities_text(value: bytes) -> str:
    """The text that AIDE keeps in base 64, as libcap made it."""
    text = _from_base64(value)
    if not re.fullmatch(CAPABILITIES_TEXT, text):
        raise ValueError
    return _cut(text.decode())


def mode_text(digits: bytes, kind: str | None) -> str:
    """Permissions such as 4755 as ls prints them: -rwsr-xr-x, without the first letter if the type
    is not known."""
    if len(digits) != 4 or digits.strip(b"01234567"):
        raise ValueError
    mode = int(digits, 8)
    if kind in TYPES:
        return stat.filemode(TYPES[kind] | mode)
    return stat.filemode(mode)[1:]


_DECODERS = {
    "ACL": acl_text,
    "XAttrs": xattrs_text,
    "SELinux": label_text,
    "E2FSAttrs": flags_text,
    "Caps": capabilities_text,
}
# These have a text in place of the value.
DECODED = frozenset(("Perm", *_DECODERS))


def decoded(label: str, value: Value, kind: str | None) -> str | None:
    """The value of an attribute (by its name in the details) of a file of this kind for people,
    None if nothing is to decode."""
    if value is None or isinstance(value, int):
        return None
    with suppress(ValueError):
        if label == "Perm":
            return mode_text(exact_bytes(value), kind)
        if label in _DECODERS:
            return _DECODERS[label](exact_bytes(value)) or None
    return None


def kinds_of(change: Change) -> Sequence[str | None]:
    """The types of both sides in words: an old entry has that of the new one, unless the letters or
    a side say that it changed."""
    differ = change.letters.startswith("!") or "Type" in change.old or "Type" in change.new
    kind = None if differ else change.type
    kinds: list[str | None] = []
    for values in change.sides:
        own = values.get("Type", kind)
        kinds.append(own if isinstance(own, str) else None)
    return kinds


def _side_texts(values: Values, kind: str | None) -> dict[str, str]:
    """The texts of a side by their labels."""
    texts = {}
    for label in DECODED & values.keys():
        text = decoded(label, values[label], kind)
        if text is not None:
            texts[label] = text
    return texts


def texts_of(change: Change) -> SideTexts:
    """The texts of the values of both sides. If two values have one text, which would hide the
    change, neither has it."""
    old, new = (_side_texts(*side) for side in zip(change.sides, kinds_of(change)))
    for label in list(old):
        if old[label] == new.get(label) and change.old[label] != change.new[label]:
            del old[label]
            del new[label]
    return SideTexts(old, new)
