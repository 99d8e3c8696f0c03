"""Real nights of a Debian 12, cut to some 20 to 60 entries each: a rotation, and an intruder among
the changes of an install and of an upgrade.

The texts in tests/nights have lines of AIDE's databases and of dpkg's records as they were, those
that are so in both nights once. A paragraph of dpkg's status and each other record is one line,
with tabs for its ends of line. Before an entry that differs stands what is wanted of it: its
standing, and the package of a recorded one.
"""
from __future__ import annotations

import os
import re
from urllib.parse import unquote_to_bytes

from tests.commands.made_up import COLUMNS, objects_of, standings_of, write_records
from tests.commands.sandbox import CommandTest
from tests.lib.scratch import TOP

DIRECTORY = os.path.join(TOP, "tests", "nights")
NIGHT = re.compile(r"n\d+-[a-z-]+\.txt")

Parts = dict[str, list[str]]


def read_night(name: str) -> Parts:
    """The lines of a night's text, by the title above them."""
    parts: Parts = {}
    lines: list[str] = []
    with open(os.path.join(DIRECTORY, name + ".txt"), encoding="utf-8") as file:
        for line in file.read().splitlines():
            if line.startswith("@@ "):
                lines = parts[line[3:]] = []
            else:
                lines.append(line)
    return parts


def database_of(parts: Parts, side: str) -> str:
    """The database of one side. What is wanted of an entry stands before a tab."""
    lines = parts["entries of both"] + parts.get(f"entries of {side}", [])
    entries = [line.rpartition("\t")[2] for line in lines]
    entries.sort(key=lambda line: unquote_to_bytes(line.split(" ")[0]).split(b"/"))
    text = "".join(line + "\n" for line in entries)
    return f"@@begin_db\n@@db_spec {' '.join(COLUMNS)}\n{text}@@end_db\n"


def records_of(parts: Parts) -> dict[str, bytes]:
    """dpkg's records in the new night, by their names."""
    lines = parts["records of both"] + parts.get("records of new", [])
    texts: dict[str, str] = {}
    for line in lines:
        name, _, text = line.partition("\t")
        texts[name] = text
    packages = parts["packages of both"] + parts.get("packages of new", [])
    texts["status"] = "\t\t".join(sorted(packages))
    return {name: (text.replace("\t", "\n") + "\n").encode() for name, text in texts.items()}


def wanted_of(parts: Parts) -> dict[bytes, str]:
    """What is wanted of each entry, by its path."""
    wanted: dict[bytes, str] = {}
    for line in parts["entries of old"] + parts["entries of new"]:
        words, tab, entry = line.rpartition("\t")
        if tab:
            wanted[unquote_to_bytes(entry.split(" ")[0])] = words
    return wanted


class NightsTest(CommandTest):
    def test_nights(self) -> None:
        names = sorted(name[:-4] for name in os.listdir(DIRECTORY) if NIGHT.fullmatch(name))
        self.assertEqual(len(names), 3, "there are nights")
        for name in names:
            parts = read_night(name)
            for side in ("old", "new"):
                self.write(f"{side}.db", database_of(parts, side))
            write_records(self, records_of(parts))
            answer = self.call("aide-compare json", "old.db", "new.db")
            self.assertIn(answer.status, range(1, 8), (f"{name} is compared", answer))
            found = standings_of(objects_of(answer), ("standing", "package"))
            self.assertEqual(found, wanted_of(parts), name)
