"""Finds the files of specs/ that say what the public calls promise.

From the contracts of all public functions and traits this follows each name to its definition, and
from there to the definitions that it uses.
"""
from __future__ import annotations

import os
import re

from tools.source.checker import TOP
from tools.source.definitions import WORD, Definitions, crates, imports_of


def public_names(crate: str) -> set[str]:
    """The names that the root of a crate hands on."""
    root = os.path.join(TOP, "crates", crate, "src", "lib.rt")
    if not os.path.exists(root):
        return set()
    with open(root, encoding="utf-8") as file:
        text = file.read()
    return {
        name for use in re.findall(r"^pub use ([^;]+);", text, re.M) for name in WORD.findall(use)
    }


def owner_of(head: str) -> str:
    """The name of the item that a line begins; of an impl, the type that it is for."""
    plain = re.sub(r"<[^<>]*(<[^<>]*>[^<>]*)*>", "", head.split("{")[0])
    if plain.startswith("impl"):
        plain = plain[len("impl") :].split(" for ")[-1]
        return str(WORD.findall(plain)[0])
    return str(WORD.findall(re.split("[(:]", plain, maxsplit=1)[0])[-1])


def public_contracts(text: str, public: set[str]) -> str:
    """The texts of the contracts of public functions and traits in a source file."""
    owner, kept, taking, inside = False, [], False, False
    for line in text.split("\n"):
        if re.match(r"(pub )?(impl|trait|struct|enum|fn|const fn)\b", line):
            owner = owner_of(line) in public
            whole = line.startswith("pub trait") or " for " in line
            taking = owner and (whole or line.startswith(("pub fn", "pub const fn")))
            inside = whole
        elif re.match(r"    pub (const )?fn ", line):
            taking, inside = owner, False
        if taking:
            kept.append(line)
        if taking and line.strip() == "{" and not inside:
            taking = False
    return "\n".join(kept)


def met() -> dict[str, set[str]]:
    """The files of specs/ that the contracts of what the crates hand on reach, by crate."""
    definitions, first = Definitions(crates()), []
    for crate in crates():
        public = public_names(crate)
        for path, _, inside in os.walk(os.path.join(TOP, "crates", crate, "src")):
            for file in inside:
                if (
                    file.endswith(".rt")
                    and "tests" not in os.path.relpath(path, TOP)
                    and file != "tests.rt"
                ):
                    with open(os.path.join(path, file), encoding="utf-8") as opened:
                        text = opened.read()
                    words = WORD.findall(public_contracts(text, public))
                    first += definitions.named_by(words, imports_of(text))[0]
    seen = definitions.reached(first)[0]
    return {crate: {file for other, file, _ in seen if other == crate} for crate in crates()}
