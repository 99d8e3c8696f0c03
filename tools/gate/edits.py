"""Wrong bodies: texts that make a crate wrong at one place, and where that place is.

Such an edit is a file `crates/NAME/wrong/*.edit`: a line `file: src/lib.rt`, and behind it a line
`old: TEXT` and a line `new: TEXT`. Each TEXT is one line or a part of one, and the old one is in
that file exactly once. More pairs may follow. `rt` reads the same form in `must-fail/`.
"""
from __future__ import annotations

import os
import re
from collections.abc import Iterable
from typing import NamedTuple

FUNCTION = re.compile(
    r"(?P<indent> *)(?:pub(?:\([a-z]+\))? )?(?:const )?(?:unsafe )?fn (?P<name>\w+)"
)
IMPL = re.compile(r"(?:unsafe )?impl\b(?P<head>[^{]*)")
TRAIT = re.compile(r"(?:pub )?trait (?P<name>\w+)")
ITEM = re.compile(r"(?:pub(?:\([a-z]+\))? )?(?:const|static|struct|enum|type|mod|use) ")
# A list of parameters that has no other one inside.
PARAMETERS = re.compile(r"<[^<>]*>")


class BadEdit(Exception):
    """An edit that cannot be planted, and why."""


class Change(NamedTuple):
    """A text that stands in place of another one in a file of the crate."""

    path: str
    old: str
    new: str


class Edit(NamedTuple):
    """The changes of one file below `wrong/`."""

    crate: str
    name: str
    changes: tuple[Change, ...]

    def __str__(self) -> str:
        return f"{self.crate}/{self.name}"


class Function(NamedTuple):
    """A function of a file below `src/`, and what it is a method of: a type, or the type and the
    trait."""

    path: str
    owner: str
    trait: str
    name: str

    def is_named(self, name: str) -> bool:
        """Whether the checker means this function, or a closure in it, by a path below the crate.

        It puts a method into the module of its type, and calls one of an impl of a trait by the
        type, the trait and the trait's types.
        """
        module = self.path[len("src/") : -len(".rt")].replace("/", "::")
        place = "" if module in ("lib", "main") else f"{module}::"
        function = self.name
        if self.owner:
            place = r"(?:\w+::)*"
            types = r"\w*" if self.trait else ""
            function = f"{self.owner}{self.trait}{types}::{self.name}"
        return bool(re.fullmatch(rf"{place}(?:{function}|fn::{function}::.*)", name))


def read(crate: str, path: str) -> Edit:
    """Reads an edit. Raises BadEdit if it has no pair, or one without a file."""
    name = os.path.basename(path)[: -len(".edit")]
    file, old = "", ""
    changes = []
    with open(path, encoding="utf-8") as text:
        for line in text.read().split("\n"):
            word, _, rest = line.partition(":")
            value = rest[1:] if rest.startswith(" ") else rest
            if word == "file":
                file = value.strip()
            elif word == "old":
                old = value
            elif word == "new":
                if not file.startswith(("src/", "specs/")) or not old:
                    raise BadEdit("a line `new:` has no file of src/ or specs/, or no line `old:`")
                changes.append(Change(file, old, value))
                old = ""
    if not changes:
        raise BadEdit("it has no pair of lines `old:` and `new:`")
    return Edit(crate, name, tuple(changes))


def owner_of(head: str) -> tuple[str, str]:
    """The type that an impl is for, and the trait, if it is of one, without their parameters."""
    bare = head.replace("->", "")
    while PARAMETERS.search(bare):
        bare = PARAMETERS.sub("", bare)
    trait, _, owner = bare.split(" where ")[0].rpartition(" for ")
    return name_of_type(owner.strip()), trait.strip().rpartition("::")[2]


def name_of_type(text: str) -> str:
    """How the checker calls a type without parameters: a reference and a slice by words."""
    if text.startswith("&"):
        return "Ref" + name_of_type(re.sub(r"^&(?:'\w+ )?(?:mut )?", "", text))
    if text.startswith("["):
        return "Slice" + name_of_type(text.strip("[]"))
    name = text.rpartition("::")[2]
    return name[:1].upper() + name[1:]


def function_at(path: str, text: str, position: int) -> Function | None:
    """The function that a place of a file is in. None if it is in none, as in a constant."""
    owner, trait, found = "", "", None
    lines = text.split("\n")
    for number, line in enumerate(lines[: text.count("\n", 0, position) + 1]):
        of_impl = IMPL.match(" ".join(lines[number : number + 6]))
        of_trait = TRAIT.match(line)
        of_function = FUNCTION.match(line)
        if of_impl:
            owner, trait = owner_of(of_impl["head"])
        elif of_trait:
            owner, trait = of_trait["name"], ""
        elif of_function and of_function["indent"]:
            found = Function(path, owner, trait, of_function["name"])
        elif of_function:
            found = Function(path, "", "", of_function["name"])
        elif ITEM.match(line):
            found = None
    return found


class Sources:
    """The texts of a crate, with edits planted in them."""

    def __init__(self, folder: str) -> None:
        self.folder = folder
        self.texts: dict[str, str] = {}

    def text(self, path: str) -> str:
        """A file as it is now. Raises BadEdit if there is none."""
        if path not in self.texts:
            try:
                with open(os.path.join(self.folder, path), encoding="utf-8") as file:
                    self.texts[path] = file.read()
            except (OSError, UnicodeDecodeError) as error:
                raise BadEdit(f"{path} cannot be read") from error
        return self.texts[path]

    def functions(self, edit: Edit) -> frozenset[Function]:
        """The functions that an edit changes; none if it changes a definition or a constant."""
        found = set()
        for change in edit.changes:
            text = self.text(change.path)
            if text.count(change.old) != 1:
                raise BadEdit(f"an old text is not exactly once in {change.path}")
            if change.path.startswith("src/"):
                found.add(function_at(change.path, text, text.index(change.old)))
        return frozenset(each for each in found if each)

    def plant(self, edit: Edit) -> None:
        """Makes the changes of an edit. Raises BadEdit, and changes nothing, if one does not fit."""
        texts = dict(self.texts)
        for change in edit.changes:
            text = self.text(change.path)
            if text.count(change.old) != 1:
                self.texts = texts
                raise BadEdit(f"an old text is not exactly once in {change.path}")
            self.texts[change.path] = text.replace(change.old, change.new)


class Group(NamedTuple):
    """Edits that are judged in one check: no function is changed by two of them."""

    edits: list[tuple[Edit, frozenset[Function]]]
    sources: Sources

    def take(self, edit: Edit, functions: frozenset[Function]) -> bool:
        """Plants one edit more, if the group has room for it."""
        if (
            any(not mine or mine & functions for _, mine in self.edits)
            or self.edits
            and not functions
        ):
            return False
        try:
            self.sources.plant(edit)
        except BadEdit:
            return False
        self.edits.append((edit, functions))
        return True


def groups_of(folder: str, edits: Iterable[tuple[Edit, frozenset[Function]]]) -> list[Group]:
    """The edits in as few groups as a plain choice finds. Each edit fits the crate as it is."""
    groups: list[Group] = []
    for edit, functions in edits:
        if not any(group.take(edit, functions) for group in groups):
            group = Group([], Sources(folder))
            group.take(edit, functions)
            groups.append(group)
    return groups
