"""Reads the definitions in the crates' specs/: the text of each, the sentence over it, and what it
uses."""
from __future__ import annotations

import os
import re
from collections.abc import Sequence

from tools.source.checker import TOP, libraries

# A name that a file of specs/ defines: its crate, its file and itself.
Place = tuple[str, str, str]
# Such names, each once and in the order in which they were met.
Places = list[Place]
IMPORT = re.compile(r"use\s+Rattle\.(\w+)\.specs\.([\w.]+?)\.\{([^}]*)\}", re.S)
ALIAS = re.compile(r"use\s+Rattle\.(\w+)\.specs\.([\w.]+) as (\w+)\s*$", re.M)
REEXPORT = re.compile(r"^pub use Rattle\.(\w+)\.specs\.([\w.]+)\s*$", re.M)
WORD = re.compile(r"[A-Za-z_][\w']*")
DEFINED = re.compile(
    r"^(?:abbrev |unfoldable |pub |private )*(?:record |data )?([A-Za-z_][\w']*)\b"
)
# What stands over definitions that use each other.
MUTUAL = ("mutual", "abbrev mutual")
CONSTRUCTOR = re.compile(r"^  ([A-Za-z_][\w']*) :")


def crates() -> list[str]:
    """The crates of the repository, by crates.txt."""
    return list(libraries())


def imports_of(text: str) -> dict[str, Place]:
    """For each name that a file imports, the crate and the file of specs/ that it comes from. Types
    of the code come from files whose names begin with `declared`."""
    found = {}
    for crate, file, names in IMPORT.findall(text):
        for name in names.split(","):
            parts = name.split(" as ")
            found[parts[-1].strip()] = (crate, file, parts[0].strip())
    for crate, file, name in ALIAS.findall(text):
        found[name] = (crate, file, name)
    return found


class Definition:
    """A definition: the sentence over it, its lines, and the line of the module that it is in, if
    it has one."""

    def __init__(self, module: str) -> None:
        self.module = module
        self.sentence = ""
        self.lines: list[str] = []

    def text(self) -> str:
        return "\n".join(self.lines) + "\n"

    def words(self) -> list[str]:
        """Its words in their order, each once; those of its module's parameters come last."""
        text = "\n".join(line.split("--")[0] for line in self.lines + [self.module])
        return list(dict.fromkeys(WORD.findall(text)))

    def is_group(self) -> bool:
        """Whether it is a record, or a type by its constructors."""
        return bool(re.match(r"(?:pub |private )*(?:record|data) ", self.lines[0]))


class File:
    """One file of specs/: the sentence at its head, what it imports, its definitions in their
    order, and for each constructor the definition that has it."""

    def __init__(self, text: str) -> None:
        self.imports = imports_of(text)
        self.definitions: dict[str, Definition] = {}
        self.owners: dict[str, str] = {}
        head = re.match(r"(?:-- .*\n)*", text)
        self.head = " ".join(head[0].replace("-- ", "").split()) if head else ""
        module, depth, name = "", 0, ""
        sentence: list[str] = []
        for line in text.split("\n"):
            if not line.strip():
                sentence = []
                continue
            if line.startswith("module ") or line in MUTUAL:
                module, depth, sentence = "" if line in MUTUAL else line, 2, []
                continue
            if depth and not line.startswith("  "):
                module, depth = "", 0
            line = line[depth:]
            if line.startswith("--"):
                sentence.append(line[2:].strip())
            elif not line.startswith(("use ", " ", "}", "]")):
                defined = DEFINED.match(line)
                name = defined[1] if defined else ""
                self.take(name, line, module, sentence)
                sentence = []
            elif not line.startswith("use "):
                self.take(name, line, module, [])

    def take(self, name: str, line: str, module: str, sentence: list[str]) -> None:
        if not name:
            return
        if name not in self.definitions:
            self.definitions[name] = Definition(module)
            self.definitions[name].sentence = " ".join(sentence)
        definition = self.definitions[name]
        definition.lines.append(line.rstrip())
        constructor = CONSTRUCTOR.match(line)
        if constructor and definition.is_group():
            self.owners[constructor[1]] = name


class Definitions:
    """The definitions of all crates."""

    def __init__(self, names: list[str]) -> None:
        self.files: dict[tuple[str, str], File] = {}
        self.again: dict[tuple[str, str], tuple[str, str]] = {}
        self.used: dict[Place, tuple[Places, Places]] = {}
        for crate in names:
            folder = os.path.join(TOP, "crates", crate, "specs")
            for path, _, inside in os.walk(folder):
                for file in inside:
                    name = os.path.relpath(os.path.join(path, file), folder)
                    name = name[: -len(".antt")].replace(os.sep, ".")
                    with open(os.path.join(path, file), encoding="utf-8") as opened:
                        self.take(crate, name, opened.read())

    def take(self, crate: str, name: str, text: str) -> None:
        if name == "Lib":
            for other, where in REEXPORT.findall(text):
                self.again[crate, where.split(".")[-1]] = (other, where)
        else:
            self.files[crate, name] = File(text)

    def found(self, target: Place) -> Place | None:
        """Where a name that was imported is defined: crate, file and name; `None` if it is in no
        crate's specs/."""
        crate, file, name = target
        if (crate, file) not in self.files and (crate, file) in self.again:
            crate, file = self.again[crate, file]
        if (crate, file) not in self.files:
            return None
        return crate, file, self.files[crate, file].owners.get(name, name)

    def has(self, place: Place) -> bool:
        return place[2] in self.files[place[:2]].definitions

    def definition(self, place: Place) -> Definition:
        return self.files[place[:2]].definitions[place[2]]

    def named_by(
        self, words: list[str], imports: dict[str, Place], here: tuple[str, str] | None = None
    ) -> tuple[Places, Places]:
        """What words name, in their order: places of definitions, and imports from elsewhere."""
        inside: Places = []
        outside: Places = []
        for word in words:
            target = imports.get(word)
            if target is None and here:
                own = self.files[here]
                name = own.owners.get(word, word)
                target = (*here, name) if name in own.definitions else None
            place = self.found(target) if target else None
            if place and place not in inside:
                inside.append(place)
            elif target and not place and target not in outside:
                outside.append(target)
        return inside, outside

    def used_by(self, place: Place) -> tuple[Places, Places]:
        """What a definition names."""
        if place not in self.used:
            words = self.definition(place).words() if self.has(place) else []
            self.used[place] = self.named_by(words, self.files[place[:2]].imports, place[:2])
        return self.used[place]

    def reached(self, places: Places, stops: Sequence[Place] = ()) -> tuple[Places, Places]:
        """The definitions that these need, in the order in which they are met, and what they name
        elsewhere."""
        order: Places = []
        outside: Places = []
        waiting = list(places)
        while waiting:
            place = waiting.pop(0)
            if place in order or place in stops or not self.has(place):
                continue
            order.append(place)
            inside, others = self.used_by(place)
            waiting += inside
            outside += [other for other in others if other not in outside]
        return order, outside
