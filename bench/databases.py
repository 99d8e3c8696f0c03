"""Makes pairs of databases of any size, as AIDE writes them, which differ in one way each: see
`PAIRS`."""
from __future__ import annotations

import base64
import hashlib
from typing import NamedTuple

# Digests with their bytes: those of lines of 653 bytes, and those that lines of 1,000 have more.
DIGESTS = {
    "md5": 16,
    "sha1": 20,
    "sha256": 32,
    "sha512": 64,
    "rmd160": 20,
    "tiger": 24,
    "crc32": 4,
    "haval": 32,
    "gost": 32,
    "whirlpool": 64,
    "stribog512": 64,
}
MORE_DIGESTS = {"stribog256": 32, "sha512_256": 32, "sha3_256": 32, "sha3_512": 64}
# The columns of the forms, by the length of their lines in bytes, about. Lines of 77 bytes are
# those of a configuration without digests. Lines of 64 short fields have 138 bytes.
UNKNOWN = [f"unknown{number:02}" for number in range(30)]
SHORT = (
    "name attr perm lname size bcount uid gid atime mtime ctime inode lcount md5 sha1 sha256 sha512"
    " rmd160 tiger crc32 crc32b haval gost whirlpool stribog256 stribog512 sha512_256 sha3_256"
    " sha3_512 acl xattrs selinux e2fsattrs capabilities"
)
USUAL = "name lname attr perm inode uid gid size mtime ctime lcount sha256 acl xattrs"
LONGER = (
    "name lname perm uid gid size ctime mtime inode bcount lcount md5 attr acl sha256 selinux"
    " xattrs e2fsattrs"
)
FORMS = {
    77: ["name", "perm", "inode", "mtime", "size"],
    138: SHORT.split() + UNKNOWN,
    165: USUAL.split(),
    259: LONGER.split(),
    653: ["name", "perm", "size", "mtime", *DIGESTS],
    1000: ["name", "perm", "size", "mtime", *DIGESTS, *MORE_DIGESTS, "xattrs"],
}
ACL = "POSIX,dXNlcjo6cnctCmdyb3VwOjpyLS0Kb3RoZXI6OnItLQo=,0"
XATTRS = "1,dXNlci5ub3Rl," + base64.b64encode(b"a note of some words " * 5).decode()
# What AIDE writes in the column `attr`. All attributes of the form of 138 bytes are on.
BITS = {138: "4095", 165: "112744996797", 259: "112744996797"}


class Pair(NamedTuple):
    """How two databases differ: one entry in so many is changed, is only in the new database, is
    only in the old one, is on one side only, or has new times. `sections` is the number of lists
    and details that their report has."""

    changed: int = 0
    added: int = 0
    removed: int = 0
    alone: int = 0
    upgraded: int = 0
    more_columns: tuple[str, ...] = ()
    sections: int = 2

    def openings(self, level: str) -> int:
        """How often a run opens each database."""
        return {"lines": 1, "minimal": 2}.get(level, 2 + self.sections)

    def has(self, number: int, is_new: bool) -> bool:
        if is_one_of(self.removed if is_new else self.added, number):
            return False
        return not self.alone or number % self.alone != (77 if is_new else 78)


# A few of each: one entry in 1,000 is changed, and one in 10,000 on either side is alone. An
# upgrade gives a tenth of the files new times, and a third of these other bytes.
PAIRS = {
    "0.1 % changed": Pair(changed=1000),
    "a few of each": Pair(changed=1000, alone=10000, sections=4),
    "1 % changed": Pair(changed=100),
    "10 % changed": Pair(changed=10),
    "100 % changed": Pair(changed=1),
    "none changed": Pair(sections=0),
    "10 % added": Pair(added=10),
    "100 % added": Pair(added=1),
    "100 % removed": Pair(removed=1),
    "a column more": Pair(more_columns=("capabilities",), sections=0),
    "an upgrade": Pair(upgraded=10),
}


def is_one_of(every: int, number: int) -> bool:
    return bool(every) and number % every == 0


def digest(name: str, text: str) -> str:
    return base64.b64encode(hashlib.new(name, text.encode()).digest()).decode()


def long_digest(text: str, size: int) -> str:
    """A digest of so many bytes."""
    return base64.b64encode(hashlib.shake_128(text.encode()).digest(size)).decode()


def time_at(number: int) -> str:
    return base64.b64encode(b"%d" % (1700000000 + number)).decode()


def short_fields(number: int, has_times: bool, has_bytes: bool) -> dict[str, str]:
    """The fields of a line of 138 bytes."""
    return {
        "name": f"/f{number:07}",
        "attr": BITS[138],
        "perm": "644",
        "size": "12"[has_bytes],
        "bcount": "8",
        "mtime": "12"[has_times],
        "ctime": "12"[has_times],
        "inode": str(number % 10),
        "lcount": "1",
    }


def fields_of(form: int, number: int, has_times: bool, has_bytes: bool) -> dict[str, str]:
    """The fields of an entry that are not `0`; the last two tell what of it is changed."""
    if form == 138:
        return short_fields(number, has_times, has_bytes)
    path = f"/usr/share/d{number // 1000:04}/sub{number // 50 % 20:02}/file-{number:06}.dat"
    text = path + ("changed" if has_bytes else "")
    fields = {
        "name": path,
        "perm": "100644",
        "bcount": "8",
        "lcount": "1",
        "attr": BITS.get(form, ""),
        "size": str(number * 7919 % 100000 + has_bytes),
        "inode": str(1000000 + number),
        "ctime": time_at(number + has_times),
        "mtime": time_at(number + (has_times if form == 77 else 0)),
        "md5": digest("md5", text),
        "sha256": digest("sha256", text),
        "acl": ACL if form == 259 else "0",
        "e2fsattrs": "524288",
    }
    if form in (653, 1000):
        sizes = {**DIGESTS, **MORE_DIGESTS}
        fields.update({name: long_digest(text, size) for name, size in sizes.items()})
        fields["xattrs"] = XATTRS
    return fields


def line_of(form: int, columns: list[str], pair: Pair, number: int, is_new: bool) -> str:
    is_changed = is_new and is_one_of(pair.changed, number)
    is_upgraded = is_new and is_one_of(pair.upgraded, number)
    has_bytes = is_changed or is_upgraded and number // pair.upgraded % 3 == 0
    fields = fields_of(form, number, is_changed or is_upgraded, has_bytes)
    if is_upgraded and form != 138:
        fields["mtime"] = time_at(number + 1)
    return " ".join(fields.get(column, "0") for column in columns)


def write_database(path: str, form: int, pair: Pair, entries: int, is_new: bool) -> None:
    columns = FORMS[form] + (list(pair.more_columns) if is_new else [])
    with open(path, "w") as file:
        file.write("@@begin_db\n# This file was made by bench/databases.py\n")
        file.write(f"@@db_spec {' '.join(columns)}\n")
        for number in range(entries):
            if pair.has(number, is_new):
                file.write(line_of(form, columns, pair, number, is_new) + "\n")
        file.write("@@end_db\n")


def write_pair(old: str, new: str, form: int, pair: Pair, entries: int) -> None:
    write_database(old, form, pair, entries, False)
    write_database(new, form, pair, entries, True)
