"""What command lines ask for, as values: each has what its rows say, and nothing else."""
from __future__ import annotations

import importlib

from tests.commands.units.calls import ModuleTest

from aide_compare.base.options import Request
from aide_compare.base.parser import filled
from aide_compare.commands import front
from aide_compare.commands.compare_request import OutputRequest

MODULES = [*front.COMMANDS, *(f"hosts_{word}" for word in front.HOSTS)]


def requests_of(module: str) -> list[type[Request]]:
    """The classes of requests that a module of commands has."""
    values = vars(importlib.import_module(f"aide_compare.commands.{module}")).values()
    classes = [each for each in values if isinstance(each, type) and issubclass(each, Request)]
    return [each for each in classes if each not in (Request, OutputRequest)]


class RequestsTest(ModuleTest):
    def test_names(self) -> None:
        """A name without a row, or a row without a value, is refused."""
        for module in MODULES:
            for asked in requests_of(module):
                rows = asked.rows()
                usual = {name: None for name in rows}
                with self.subTest(f"{module}: {asked.__name__}"):
                    self.assertEqual(vars(asked(usual)), usual)
                    with self.assertRaisesRegex(TypeError, "max_kpt"):
                        asked({**usual, "max_kpt": 1})
                    for name in list(rows)[:1]:
                        with self.assertRaisesRegex(TypeError, name):
                            asked({other: None for other in rows if other != name})

    def test_filled(self) -> None:
        """What the command line says, what the defaults say, and what is usual."""
        (asked,) = requests_of("sort")
        request = filled(asked, {"path": None}, {"max_size": 7})
        self.assertEqual(vars(request), {"is_quiet": False, "path": "-", "max_size": 7})
