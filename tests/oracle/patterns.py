"""Lists of patterns over paths: the first line that names a path, or the first fault of the list.

Every way in which a pattern may match is tried. A component becomes a regular expression in which
each class is the set of its bytes.
"""
from __future__ import annotations

import re
from typing import NamedTuple

BLANKS = b" \t\r"
GAPS = b" \t"
MOST_RULES = 500
PROGRAMS = b"programs("
EVERY_BYTE = frozenset(range(256))


class Fault(Exception):
    """What is wrong with a line, by the name that the crate gives it."""


class Rule(NamedTuple):
    line: int
    components: list[bytes]
    programs: bool


def class_at(component: bytes, at: int) -> tuple[frozenset[int], int]:
    """The bytes that the class behind a bracket contains, and the index behind its end."""
    start = at
    if component[at : at + 1] in (b"!", b"^"):
        start = at + 1
    end = component.find(b"]", start + 1)
    if end < 0:
        raise Fault("OpenClass")
    members = component[start:end]
    found: set[int] = set()
    while members:
        first = last = members[0]
        size = 1
        if len(members) > 2 and members[1:2] == b"-":
            last = members[2]
            size = 3
        if last < first:
            raise Fault("BadRange")
        found.update(range(first, last + 1))
        members = members[size:]
    if start > at:
        return EVERY_BYTE - found, end + 1
    return frozenset(found), end + 1


def expression_of(component: bytes) -> bytes:
    expression = b""
    at = 0
    while at < len(component):
        byte = component[at : at + 1]
        at += 1
        if byte == b"*":
            expression += b".*"
        elif byte == b"?":
            expression += b"."
        elif byte == b"[":
            members, at = class_at(component, at)
            expression += b"(?:%s)" % (
                b"|".join(b"\\x%02x" % m for m in sorted(members)) or b"(?!)"
            )
        elif byte == b"\\":
            if at == len(component):
                raise Fault("OpenEscape")
            expression += re.escape(component[at : at + 1])
            at += 1
        else:
            expression += re.escape(byte)
    return expression


def components_of(pattern: bytes) -> list[bytes]:
    if not pattern.startswith(b"/"):
        raise Fault("NoPath")
    components = pattern[1:].split(b"/")
    for component in components:
        if b"**" in component and component != b"**":
            raise Fault("DoubleStar")
        expression_of(component)
    return components


def rule_of(number: int, line: bytes) -> Rule | None:
    """The rule of a line, or None if it has none."""
    text = line.strip(BLANKS)
    if not text or text.startswith(b"#"):
        return None
    if not text.startswith(PROGRAMS):
        return Rule(number, components_of(text), False)
    reason, bracket, after = text[len(PROGRAMS) :].partition(b")")
    if not bracket or b"(" in reason or not reason.strip(GAPS) or after[:1] not in (b" ", b"\t"):
        raise Fault("BadReason")
    return Rule(number, components_of(after.lstrip(GAPS)), True)


def rules_of(text: bytes) -> list[Rule]:
    """The rules of a list. A Fault has the number of the line and what is wrong with it."""
    rules: list[Rule] = []
    for number, line in enumerate(text.split(b"\n"), 1):
        try:
            rule = rule_of(number, line)
        except Fault as fault:
            raise Fault(f"{number} {fault}")
        if rule is not None:
            rules.append(rule)
        if len(rules) > MOST_RULES:
            raise Fault(f"{number} TooMany")
    return rules


def is_name_meant(component: bytes, name: bytes) -> bool:
    """Whether a component matches a name. No wildcard stands for a dot at its beginning."""
    if name.startswith(b".") and not component.startswith(b"."):
        return False
    return re.fullmatch(expression_of(component), name, re.S) is not None


def are_names_meant(components: list[bytes], names: list[bytes]) -> bool:
    """Whether components match names. `**` stands for any number of names, at the end for one
    at least, and for none that begins with a dot."""
    if not components:
        return not names
    if components[0] != b"**":
        return (
            bool(names)
            and is_name_meant(components[0], names[0])
            and are_names_meant(components[1:], names[1:])
        )
    rest = components[1:] or [b"*"]
    for taken in range(len(names) + 1):
        if any(name.startswith(b".") for name in names[:taken]):
            return False
        if are_names_meant(rest, names[taken:]):
            return True
    return False


def line_of(rules: list[Rule], path: bytes, is_program: bool) -> int:
    """The line of the first rule that names a path, or 0."""
    if not path.startswith(b"/"):
        return 0
    names = path[1:].split(b"/")
    for rule in rules:
        if (rule.programs or not is_program) and are_names_meant(rule.components, names):
            return rule.line
    return 0
