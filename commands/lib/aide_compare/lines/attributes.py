"""The attributes of a change as lines and reports name them, with the form of their values and the
words of people, and digests by their strength."""
from __future__ import annotations

# In the order of the details. Behind a label is the form of its values.
_TABLE = """
Type=type Lname=link Size=number Bcount=number Perm=perm UID=number GID=number Atime=time
Mtime=time Ctime=time Inode=number Linkcount=number MD5=digest SHA1=digest SHA256=digest
SHA512=digest RMD160=digest TIGER=digest CRC32=digest CRC32B=digest HAVAL=digest GOST=digest
WHIRLPOOL=digest STRIBOG256=digest STRIBOG512=digest SHA512/256=digest SHA3-256=digest
SHA3-512=digest ACL=bytes XAttrs=bytes SELinux=bytes E2FSAttrs=bytes Caps=bytes
"""
# The form of each label.
FORMS = dict(pair.split("=") for pair in _TABLE.split())
# What people read in place of a label; of those that are not here, the label itself.
_WORDS = {
    "Type": "type",
    "Lname": "target",
    "Size": "size",
    "Bcount": "blocks",
    "Perm": "mode",
    "UID": "owner",
    "GID": "group",
    "Atime": "atime",
    "Mtime": "mtime",
    "Ctime": "ctime",
    "Inode": "inode",
    "Linkcount": "links",
    "XAttrs": "extended attributes",
    "E2FSAttrs": "flags",
    "Caps": "capabilities",
}
CONTENT = "content"
NUMBERS = frozenset(label for label, form in FORMS.items() if form in ("number", "time"))
# The digest that people look at first, if an entry has it, and so on.
STRENGTH = (
    *("SHA256", "SHA512", "SHA3-256", "SHA3-512", "SHA512/256", "STRIBOG256", "STRIBOG512"),
    *("WHIRLPOOL", "RMD160", "SHA1", "GOST", "TIGER", "HAVAL", "MD5", "CRC32", "CRC32B"),
)
# The names of their columns in a database.
DIGEST_COLUMNS = frozenset(label.lower().replace("-", "_").replace("/", "_") for label in STRENGTH)


def word_of(label: str) -> str:
    """An attribute in the word of people; a digest by its name."""
    return _WORDS.get(label, label)
