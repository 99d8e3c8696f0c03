"""A validator of what contrib/json uses of JSON Schema (2020-12); any other keyword is a fault."""
from __future__ import annotations

import json
import os
import re
from typing import Any, Callable

from tests.lib.scratch import TOP

PATH = os.path.join(TOP, "contrib", "json", "aide-compare-lines.schema.json")
KINDS: dict[str, type] = {
    "object": dict,
    "array": list,
    "string": str,
    "null": type(None),
    "boolean": bool,
}
SAID = ("$schema", "$defs", "title", "description")
BRANCHES = ("then", "else")
Schema = dict[str, Any]


def schema_of_lines() -> Schema:
    with open(PATH, encoding="utf-8") as file:
        schema: Schema = json.load(file)
    return schema


def is_of(value: object, kind: str) -> bool:
    if kind == "integer":
        return isinstance(value, int) and not isinstance(value, bool)
    return isinstance(value, KINDS[kind])


def is_any_of(value: object, kinds: str | list[str]) -> bool:
    return any(is_of(value, kind) for kind in ([kinds] if isinstance(kinds, str) else kinds))


def is_same(one: object, other: object) -> bool:
    """JSON's equality: true is not 1."""
    return one == other and isinstance(one, bool) == isinstance(other, bool)


# Whether a value fits a keyword that says nothing of its members.
PLAIN: dict[str, Callable[[Any, Any], bool]] = {
    "type": is_any_of,
    "const": is_same,
    "enum": lambda value, rule: any(is_same(value, other) for other in rule),
    "pattern": lambda value, rule: not isinstance(value, str) or bool(re.search(rule, value)),
    "minimum": lambda value, rule: not is_of(value, "integer") or value >= rule,
    "maximum": lambda value, rule: not is_of(value, "integer") or value <= rule,
    "minItems": lambda value, rule: not isinstance(value, list) or len(value) >= rule,
    "maxItems": lambda value, rule: not isinstance(value, list) or len(value) <= rule,
    "uniqueItems": lambda value, rule: not isinstance(value, list)
    or len(set(map(json.dumps, value))) == len(value),
    "required": lambda value, rule: not isinstance(value, dict) or set(rule) <= set(value),
}


class Validator:
    """Says what of a value does not fit a schema."""

    def __init__(self, schema: Schema) -> None:
        self.root = schema

    def faults(
        self, value: object, schema: Schema | bool | None = None, place: str = "$"
    ) -> list[str]:
        if schema is None:
            schema = self.root
        if isinstance(schema, bool):
            return [] if schema else [f"{place}: not allowed"]
        found: list[str] = []
        for keyword, rule in schema.items():
            if keyword in PLAIN:
                if not PLAIN[keyword](value, rule):
                    found.append(f"{place}: {value!r:.300} does not fit {keyword} {rule}")
            elif keyword == "$ref":
                found += self.faults(value, self.root["$defs"][rule.rpartition("/")[2]], place)
            elif keyword == "oneOf":
                found += self.faults_of_one(value, rule, place)
            elif keyword == "allOf":
                found += [fault for each in rule for fault in self.faults(value, each, place)]
            elif keyword == "if":
                branch = "else" if self.faults(value, rule, place) else "then"
                found += self.faults(value, schema.get(branch, True), place)
            elif keyword in ("properties", "additionalProperties", "items"):
                found += self.faults_of_members(value, keyword, schema, place)
            elif keyword not in SAID and not (keyword in BRANCHES and "if" in schema):
                found.append(f"the schema has the keyword {keyword}, which is not known")
        return found

    def faults_of_one(self, value: object, schemas: list[Schema], place: str) -> list[str]:
        """What is wrong if a value fits no schema: what the nearest of these says."""
        tried = [self.faults(value, schema, place) for schema in schemas]
        if tried.count([]) == 1:
            return []
        return min(tried, key=len) or [f"{place}: fits several"]

    def faults_of_members(
        self, value: object, keyword: str, schema: Schema, place: str
    ) -> list[str]:
        """What is wrong with the members of an object or a list that a keyword is about."""
        rule = schema[keyword]
        if isinstance(value, list) and keyword == "items":
            named = [(str(number), member, rule) for number, member in enumerate(value)]
        elif isinstance(value, dict) and keyword == "properties":
            named = [(name, value[name], rule[name]) for name in rule if name in value]
        elif isinstance(value, dict) and keyword == "additionalProperties":
            others = set(value) - set(schema.get("properties", ()))
            named = [(name, value[name], rule) for name in sorted(others)]
        else:
            return []
        faults = [self.faults(member, each, f"{place}.{name}") for name, member, each in named]
        return [fault for each in faults for fault in each]
