"""Which modules of tests try a file: those that import it, start a command that runs it, or name
it.

It is read from the syntax trees of the commands and the tests, so that no table has to follow them.
"""
from __future__ import annotations

import ast
import glob
import os
import re
from collections.abc import Iterator
from importlib.util import resolve_name

from tests.lib.scratch import TOP

LIBRARY = "commands/lib/"
SUBCOMMANDS = "aide_compare.commands."
# The modules that every command loads: they name each command and each option, and start none.
FRONT = {"aide_compare.commands.front", "tests.commands.sandbox"}
# What a text starts: a command as a test names it, and a module with `after_import`.
NAMED = re.compile("aide-compare ((?:hosts )?[a-z]+)")
STARTED = {"check_aide_compare": "status", "aide-compare": "compare"}


def module_name(path: str) -> str:
    """The name by which a file of Python is imported."""
    name = path[len(LIBRARY) :] if path.startswith(LIBRARY) else path
    return name[: -len(".py")].replace("/", ".").removesuffix(".__init__")


class Module:
    """What a module imports, and the texts in it."""

    def __init__(self, path: str) -> None:
        with open(os.path.join(TOP, path), encoding="utf-8") as file:
            nodes = list(ast.walk(ast.parse(file.read())))
        name = module_name(path)
        self.package = name if path.endswith("/__init__.py") else name.rpartition(".")[0]
        self.imported = {each for node in nodes for each in self._imported(node)}
        values = [node.value for node in nodes if isinstance(node, ast.Constant)]
        self.texts = {value for value in values if isinstance(value, str)}

    def _imported(self, node: ast.AST) -> Iterator[str]:
        if isinstance(node, ast.Import):
            yield from (alias.name for alias in node.names)
        elif isinstance(node, ast.ImportFrom):
            name = resolve_name("." * node.level + (node.module or ""), self.package)
            yield name
            yield from (f"{name}.{alias.name}" for alias in node.names)

    def names(self, path: str) -> bool:
        """Whether a text of the module names a file, or the directory that it is in."""
        ends = tuple(path.split("/")[-2:])
        return any(text.strip("/").endswith(ends) for text in self.texts)


class Tests:
    """The modules of the commands and of the tests, and which of them use which."""

    def __init__(self) -> None:
        self.modules: dict[str, Module] = {}
        for pattern in ("commands/lib/**/*.py", "tests/**/*.py"):
            for path in sorted(glob.glob(os.path.join(TOP, pattern), recursive=True)):
                name = os.path.relpath(path, TOP)
                self.modules[module_name(name)] = Module(name)
        self.users: dict[str, set[str]] = {name: set() for name in self.modules}
        for name, module in self.modules.items():
            used = module.imported & self.modules.keys()
            if name.startswith("tests.") and name not in FRONT:
                used |= set(self._started(module.texts))
            for other in used - FRONT:
                self.users[other].add(name)

    def _started(self, texts: set[str]) -> Iterator[str]:
        """The modules of the commands that these texts of a test start."""
        words = {STARTED[text] for text in texts & STARTED.keys()}
        if "aide-compare" in texts:
            words |= texts
        words.update(found[1] for found in map(NAMED.match, texts) if found)
        names = {SUBCOMMANDS + word.replace(" ", "_") for word in words}
        names |= {f"aide_compare.{text}" for text in texts if "." in text}
        return iter(names & self.modules.keys())

    def of(self, path: str) -> dict[str, int]:
        """The modules of tests that try a file, those that use it, with how far away they are: 0
        for those that use or name the file itself, and one more for each module between. What
        names only its directory is behind all these."""
        name = module_name(path)
        found = {name} & self.modules.keys()
        if name in FRONT or path.startswith("commands/bin/"):
            found = {other for other in self.modules if other.startswith("tests.commands.")}
        if not found:
            file = os.path.basename(path)
            found = {other for other, module in self.modules.items() if module.names(file)}
        steps: dict[str, int] = {}
        self._add_users(found, steps)
        if name not in self.modules:
            self._add_users(
                {each for each in self.modules if self.modules[each].names(path)}, steps
            )
        is_test = (each for each in steps if each.rpartition(".")[2].startswith("test_"))
        return {each: steps[each] for each in sorted(is_test)}

    def _add_users(self, found: set[str], steps: dict[str, int]) -> None:
        """Adds modules, and those that use them, with one step more for each."""
        fresh = found - steps.keys()
        while fresh:
            steps.update(dict.fromkeys(fresh, max(steps.values(), default=-1) + 1))
            fresh = {user for each in fresh for user in self.users[each]} - steps.keys()
