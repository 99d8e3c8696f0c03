"""The lines of definitions as a page shows them: short ones share a line, and users come first."""
from __future__ import annotations

import re
import textwrap
from collections.abc import Mapping
from typing import TypeVar

from tools.source.definitions import Definition

Item = TypeVar("Item")

# Columns of definitions, which are those of the crates.
WIDTH = 138
# Lines of a definition that are no longer than this share a line.
SHORT = 48


def users_first(items: list[Item], users: Mapping[Item, set[Item]]) -> list[Item]:
    """Items in an order in which each comes after those that use it; of several the one that was
    met first."""
    left, order = list(items), []
    while left:
        free = [item for item in left if not (users[item] & set(left)) - {item}]
        order.append((free or left)[0])
        left.remove(order[-1])
    return order


def equations(definition: Definition) -> list[list[str]]:
    """The lines of a definition in groups: each begins a line of its own, a field or a constructor,
    and the others go on."""
    groups: list[list[str]] = []
    for line in definition.lines:
        begins = definition.is_group() and re.match(r"  (?:pub )?[A-Za-z_][\w']* :|  --", line)
        if groups and line.startswith((" ", "}")) and not begins:
            groups[-1].append(line)
        else:
            groups.append([line])
    return groups


def filled(pieces: list[str], indent: str) -> list[str]:
    """Lines with these pieces, as many in a line as fit, with a `;` between two."""
    lines: list[str] = []
    for piece in pieces:
        if lines and len(lines[-1]) + 2 + len(piece) <= WIDTH:
            lines[-1] += "; " + piece
        else:
            lines.append(indent + piece)
    return lines


def laid_out(group: list[str]) -> list[str]:
    """A part of a definition: in one line if it fits; the parts of a record as many in a line as
    fit; otherwise as it is."""
    joined = " ".join([group[0]] + [line.strip() for line in group[1:]])
    if len(joined) <= WIDTH:
        return [joined]
    if group[0].endswith("record {") and group[-1].strip() == "}":
        parts = re.split(r"; (?=\w+ =)", " ".join(line.strip() for line in group[1:-1]).rstrip(";"))
        return [group[0]] + filled(parts, "  ") + ["}"]
    return group


def shown(definition: Definition) -> list[str]:
    """The lines of a definition; a short sentence is in its first line."""
    groups = equations(definition)
    lines = [line for group in groups for line in laid_out(group)]
    lines = [re.sub(r"^( *)(?:(?:abbrev|unfoldable|pub) )+", r"\1", line) for line in lines]
    rest, indent = [line.strip() for line in lines[1:]], "  " if definition.is_group() else ""
    goes_on = not indent and any(line.startswith(" ") for line in lines[1:])
    are_short = (
        indent
        and len("; ".join(rest)) <= WIDTH
        or not goes_on
        and all(len(line) <= SHORT for line in rest)
    )
    if are_short and not any("--" in line for line in rest):
        lines[1:] = filled(rest, indent)
    if len(lines[0]) + 4 + len(definition.sentence) <= WIDTH:
        return [lines[0] + "  -- " + definition.sentence] + lines[1:]
    return wrapped(definition.sentence, "-- ") + lines


def wrapped(text: str, front: str, width: int = WIDTH) -> list[str]:
    return [
        front + line for line in textwrap.wrap(text, width - len(front), break_on_hyphens=False)
    ]
