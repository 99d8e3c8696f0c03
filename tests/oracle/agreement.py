"""What accounts for a change: the old entry, that of a trusted machine, or nothing."""
from __future__ import annotations

from .attributes import ATTRIBUTES
from .database import Entry

# What each machine has of its own. The size of a directory depends on the file system.
OWN = frozenset(["a", "m", "c", "i", "b"])
OWN_OF_DIRECTORIES = OWN | {"s"}
# The bits of the types of which an entry says all: FIFO, directory, file, link and socket. No
# database has the numbers of a device, and Linux has no other types.
DIRECTORY, FILE, LINK = 0o04, 0o10, 0o12
KINDS = (0o01, DIRECTORY, FILE, LINK, 0o14)
DIGESTS = frozenset(attribute.name for attribute in ATTRIBUTES if isinstance(attribute.form, tuple))
# The digests of at least 256 bits by which two files may be the same. The ways to attack GOST are
# known.
STRONG = frozenset(
    "sha256 sha512 whirlpool stribog256 stribog512 sha512_256 sha3_256 sha3_512".split()
)
# Without these nobody knows who may do what with a file.
NEEDED = ("p", "u", "g")
# Who may do what with a file: what is neither a machine's own, nor of the content, nor the number
# of links.
RIGHTS = [
    attribute.name
    for attribute in ATTRIBUTES
    if attribute.name not in OWN | DIGESTS | {"s", "l", "n"}
]


def type_bits(entry: Entry) -> int | None:
    """The bits of the file type of an entry, None where it has no type."""
    return int(entry["ftype"]) >> 12 if "ftype" in entry else None


def is_alike(name: str, first: Entry, second: Entry) -> bool:
    """Whether two entries have the same value of an attribute, or neither has one."""
    return (name in first) == (name in second) and first.get(name) == second.get(name)


def differ(name: str, first: Entry, second: Entry) -> bool:
    """Whether both entries have an attribute, with different values."""
    return name in first and name in second and first[name] != second[name]


def tells_rights(entry: Entry) -> bool:
    return all(name in entry for name in NEEDED)


def same_kept(first: Entry, second: Entry, kind: int) -> bool:
    """Whether two entries have the same in all that is neither a digest nor a machine's own."""
    own = OWN_OF_DIRECTORIES if kind == DIRECTORY else OWN
    kept = [attribute.name for attribute in ATTRIBUTES if attribute.name not in own | DIGESTS]
    return all(is_alike(name, first, second) for name in kept)


def differing_content(first: Entry, second: Entry) -> set[str]:
    """What both entries have of a content, with different values: their types, sizes, targets and
    digests. The size of a directory says nothing."""
    parts = {"ftype", "l"} | DIGESTS
    if DIRECTORY not in (type_bits(first), type_bits(second)):
        parts.add("s")
    return {name for name in parts if differ(name, first, second)}


def have_targets(first: Entry, second: Entry) -> bool:
    return first.get("l") is not None and second.get("l") is not None


def has_same_content(first: Entry, second: Entry) -> bool:
    """Whether two entries surely have the same content: none of it is different, and two files
    share a strong digest, two links have targets."""
    kind = type_bits(second)
    if kind == FILE and not any(name in first and name in second for name in STRONG):
        return False
    if kind == LINK and not have_targets(first, second):
        return False
    return not differing_content(first, second)


def has_other_content(first: Entry, second: Entry) -> bool:
    """Whether two entries surely have different contents. A target that one of them lacks may be
    any."""
    found = differing_content(first, second)
    return bool(found if have_targets(first, second) else found - {"l"})


def agree(first: Entry, second: Entry) -> bool:
    """Whether two entries tell who may do what, and differ only in what each machine has of its
    own, and in digests that one lacks."""
    kind = type_bits(first)
    if kind not in KINDS or not tells_rights(first) or not tells_rights(second):
        return False
    return has_same_content(first, second) and same_kept(first, second, kind)


def both_agree(first: Entry | None, second: Entry | None) -> bool:
    return first is not None and second is not None and agree(first, second)


def changed_too(old: Entry, new: Entry, before: Entry, there: Entry) -> bool:
    """Whether what changed here, from an old entry to a new one, changed on a trusted machine,
    where `before` became `there`, which agrees with the new one.

    A right was there before what it was here, and known. A number of links was the same too, or
    surely another one than now, and a content surely another one than now.
    """
    rights = [name for name in RIGHTS if not is_alike(name, old, new)]
    if not tells_rights(old) or not all(is_alike(name, old, before) for name in rights):
        return False
    if not is_alike("n", old, new):
        if not is_alike("n", old, before) and not differ("n", before, there):
            return False
    return has_same_content(old, new) or has_other_content(before, there)


def happened_there(
    old: Entry | None, new: Entry | None, before: Entry | None, there: Entry | None
) -> bool:
    """Whether the same happened on a trusted machine, where `before` became `there`: what is new
    here is new there, what changed here changed there, and what went here went there."""
    if new is None and there is None:
        return both_agree(old, before)
    if new is None or there is None:
        return False
    if not agree(new, there) or both_agree(before, there):
        return False
    if old is None or before is None:
        return before is None and (old is None or all(is_alike(name, old, new) for name in RIGHTS))
    return changed_too(old, new, before, there)


def same_as(
    old: Entry | None,
    new: Entry | None,
    trusted_old: Entry | None = None,
    trusted_new: Entry | None = None,
) -> str | None:
    """What accounts for a change: 'old', 'trusted' or None. An argument is an entry, or None for no
    entry."""
    if both_agree(old, new):
        return "old"
    return "trusted" if happened_there(old, new, trusted_old, trusted_new) else None
