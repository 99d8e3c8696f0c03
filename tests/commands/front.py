#!/usr/bin/python3 -ISXutf8
"""The product's own command, `front`, in the directory of a test, where names of its modules get the
values of `replaced` when they are imported."""
from __future__ import annotations

import marshal
import os
import sys
from typing import Any

DIRECTORY = os.path.dirname(os.path.dirname(os.path.realpath(__file__)))


def bytes_of(name: str) -> bytes:
    with open(os.path.join(DIRECTORY, name), "rb") as file:
        return file.read()


class Replacing:
    """Finds a module as Python does. What it replaces has to be there."""

    def __init__(self) -> None:
        self.replaced: dict[str, dict[str, Any]] = marshal.loads(bytes_of("replaced"))
        self.finder: Any = sys.meta_path[-1]

    def find_spec(self, name: str, path: Any = None, target: Any = None) -> Any:
        spec = self.finder.find_spec(name, path, target)
        if name in self.replaced:
            execute = spec.loader.exec_module

            def exec_module(module: Any) -> None:
                execute(module)
                for each, value in self.replaced[name].items():
                    getattr(module, each)
                    setattr(module, each, value)

            spec.loader.exec_module = exec_module
        return spec


def become_command() -> None:
    exec(compile(bytes_of("front"), __file__, "exec"), {"__file__": __file__})


sys.meta_path.insert(0, Replacing())
if __name__ == "__main__":
    become_command()
