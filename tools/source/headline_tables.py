"""The tables of the page of the headlines: what contracts see of devices, and the types of the
code. The words of the toolchain's library have rows that people write."""
from __future__ import annotations

import re
import sys
from collections.abc import Sequence

from tests.lib.scratch import read
from tools.source.definitions import Place, Places, crates

# Where the traits of the devices are, by their names; a site is sources too.
TRAITS = {
    "Sources": "crates/aide_db/src/sources.rt",
    "Site": "crates/aide_db/src/sources.rt",
    "Sink": "crates/aide_text/src/sink.rt",
}


def comment_over(path: str, item: str) -> str:
    """The comment over an item of the code, in one line and without its last full stop."""
    found = re.search(rf"((?: */// .*\n)+)(?:#\[.*\]\n)* *{item}", read(path))
    return " ".join(found[1].replace("/// ", "").split()).rstrip(".") if found else ""


def members_of(contracts: list[str]) -> list[str]:
    """A table of what contracts see of devices: the ghost members that these name, as `S.failures`,
    by their traits."""
    found: list[tuple[str, str]] = []
    for contract in contracts:
        bounds = dict(re.findall(r"\b([A-Z]): (\w+)", contract.split("(")[0]))
        for letter, name in re.findall(r"\b([A-Z])\.(\w+)", contract):
            row = TRAITS[bounds[letter]], name
            found += [row] if row not in found else []
    lines = ["| Member | Is | File |", "|---|---|---|"]
    for file, name in found:
        lines.append(f"| `{name}` | {comment_over(file, f'ghost {name}:')} | `{file}` |")
    return lines


def parts_of(text: str, name: str) -> list[str]:
    """The variants of an enum, or the fields of a struct that others see, in their order."""
    found = re.search(rf"pub (?:struct|enum) {name}\b[^;{{(]*\{{\n(.*?)\n\}}", text, re.S)
    if not found:
        return []
    lines = [line for line in found.group(1).split("\n") if not re.match(r" *(//|#|ghost )", line)]
    return re.findall(r"^    (?:pub )?(\w+)(?=[:,( {])", "\n".join(lines), re.M)


def types_in(places: Sequence[Place]) -> set[Place]:
    """The types of the code that are among these names, or of which a variant or a constant is: for
    each its crate, the path of its module and its name."""
    found = set()
    for crate, file, _ in places:
        kind, *parts = [part for part in file.split(".") if part[:3] != "The"]
        if kind == "declared" and crate in crates():
            module = "/".join(part for part in parts if part[0].islower())
            found.add((crate, module, next(part for part in parts if not part[0].islower())))
    return found


def types_of(outside: Places, known: Sequence[Place] = ()) -> list[str]:
    """A table of the types of the code among these names, with the variants or fields of each;
    those that are `known` from another page are left out."""
    lines = ["| Type | Is | Has | File |", "|---|---|---|---|"]
    for crate, module, name in sorted(types_in(outside) - types_in(known)):
        file = f"crates/{crate}/src/{module}.rt"
        sentence = comment_over(file, rf"pub (?:struct|enum|trait) {name}\b").split(". ")[0]
        parts = ", ".join(f"`{part}`" for part in parts_of(read(file), name))
        lines.append(f"| `{name}` | {sentence} | {parts} | `{file}` |")
    return lines


def check_words(outside: Places, text: str) -> None:
    """Ends the program if pages do not say what a word of another crate's library means, or say it
    of a word that no definition has."""
    rows = set(re.findall(r"^\| `(\w+)` \| `\w+`, `[\w.]+` \|", text, re.M))
    named = {name for crate, _, name in outside if crate not in crates()}
    untold = {name for crate, _, name in outside if crate not in [*crates(), "std"]} - rows
    if untold or rows - named:
        sys.exit(f"words without a row: {untold}; rows without a word: {rows - named}")
