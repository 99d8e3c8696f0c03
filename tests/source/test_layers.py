"""The modules of the commands import downwards only.

commands/lib/aide_compare has a folder for each layer, from base to commands. A module imports only
from its own folder and from the folders before it, no two modules import each other in a circle,
and each folder says in a sentence what it has.
"""
from __future__ import annotations

import ast
import graphlib
import unittest

from tests.lib.scratch import read
from tests.source.test_docs import tracked
from tools.gate.affected import Module

PACKAGE = "aide_compare"
ROOT = "commands/lib/" + PACKAGE + "/"
# From below to above.
LAYERS = ("base", "lines", "compare", "changes", "show", "mail", "hosts", "commands")


def modules() -> dict[str, str]:
    """The path of each module that is in a layer, by its name below the package."""
    found = {}
    for path in tracked():
        if path.startswith(ROOT) and path.endswith(".py") and path != ROOT + "__init__.py":
            name = path[len(ROOT) : -len(".py")].replace("/", ".")
            found[name[: -len(".__init__")] if name.endswith(".__init__") else name] = path
    return found


def layer_of(name: str) -> str:
    return name.partition(".")[0]


def graph_of(found: dict[str, str]) -> dict[str, list[str]]:
    """Which of these modules each of them imports."""
    imports = {name: Module(path).imported for name, path in found.items()}
    return {
        name: [other for other in found if other != name and f"{PACKAGE}.{other}" in imported]
        for name, imported in imports.items()
    }


class Layers(unittest.TestCase):
    found = modules()
    graph = graph_of(found)

    def test_each_module_is_in_a_layer(self) -> None:
        self.assertEqual({layer_of(name) for name in self.found}, set(LAYERS))

    def test_each_layer_says_what_it_has(self) -> None:
        for layer in LAYERS:
            with self.subTest(layer):
                self.assertTrue(ast.get_docstring(ast.parse(read(self.found[layer]))))

    def test_imports_go_downwards(self) -> None:
        self.assertGreater(sum(map(len, self.graph.values())), 300, "imports are found")
        for name, others in self.graph.items():
            place = LAYERS.index(layer_of(name))
            above = [other for other in others if LAYERS.index(layer_of(other)) > place]
            self.assertEqual(above, [], f"{name} imports what is above it")

    def test_no_module_imports_itself_through_others(self) -> None:
        graphlib.TopologicalSorter(self.graph).prepare()
