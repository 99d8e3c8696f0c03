"""What `archive` asks of the databases of a host: in one reading each."""
from __future__ import annotations

import os
import re
from collections.abc import Container

from aide_compare.base.database import ABSENT
from aide_compare.base.paths import path_of, unescaped
from aide_compare.changes.applied import (
    CONFIGURATION,
    FLAGS,
    INFO,
    KEPT,
    SET_ASIDE,
    FieldsByColumn,
    is_directory,
)
from aide_compare.changes.certificates import CONFIGURATION as CERTIFICATES
from aide_compare.changes.certificates import LINKS, LOCAL
from aide_compare.changes.compiled import CACHED
from aide_compare.compare.kept_open import OLD_SIDE, EntryReader
from aide_compare.compare.unpack import Copy

APTS_LISTS = "/var/lib/apt/lists"
# What is read from this machine, if the databases have it as it is: an interpreter with three of
# its modules, the names of the certificates that count, and those of the administrator.
NAMED = re.compile(
    rb"(?s)/usr/bin/python3\.\d+|/usr/lib/python3\.\d+/encodings/(?:__init__|aliases|utf_8)\.py"
    rb"|" + re.escape(CERTIFICATES) + rb"|" + re.escape(LOCAL) + rb".*\.crt"
).fullmatch

# Entries of a database, by their paths or by the names of packages.
Entries = dict[str, FieldsByColumn]


class Night:
    """What a database has at some paths; of the lists and digests of packages, by dpkg's own names
    of these; of the files of packages that apt keeps; the names of apt's indexes; which compiled
    files and former configuration files it has; the targets of the links of certificates; and the
    flags of all directories, by the keys of their paths."""

    def __init__(self, copy: Copy, paths: Container[str]) -> None:
        self.named: Entries = {}
        self.lists: Entries = {}
        self.sums: Entries = {}
        self.files: Entries = {}
        self.indexes: set[str] = set()
        self.compiled: list[bytes] = []
        self.set_aside: set[bytes] = set()
        self.certificates: dict[bytes, bytes] = {}
        self.directories: dict[bytes, bytes] = {}
        reader = EntryReader(copy)
        for key, _, line in reader.entries(OLD_SIDE):
            entry = reader.fields(line)
            exact = path_of(key)
            path = os.fsdecode(exact)
            directory, name = os.path.split(path)
            own, ending = os.path.splitext(name)
            if is_directory(entry):
                self.directories[key] = entry.get(FLAGS, ABSENT)
            if CACHED(exact):
                self.compiled.append(exact)
            elif exact.startswith(CONFIGURATION) and key.endswith(SET_ASIDE):
                self.set_aside.add(key)
            elif exact.startswith(LINKS):
                self.certificates[exact] = entry.get("lname", ABSENT)
            elif path in paths or NAMED(exact):
                self.named[path] = entry
            elif directory + "/" == INFO and ending == ".list":
                self.lists[own] = entry
            elif directory + "/" == INFO and ending == ".md5sums":
                self.sums[own] = entry
            elif directory + "/" == KEPT and ending == ".deb":
                self.files[name] = entry
            elif directory == APTS_LISTS:
                self.indexes.add(name)
        self.whole = self.lists.keys() & self.sums.keys()

    def link(self, path: bytes) -> bytes:
        """Where one of the paths points to; what AIDE writes for none if it is no link."""
        return unescaped(self.named.get(path.decode(), {}).get("lname", ABSENT))


def changed(old: Entries, new: Entries) -> Entries:
    """The new entries that the old database has otherwise, or not at all."""
    return {name: entry for name, entry in new.items() if old.get(name) != entry}
