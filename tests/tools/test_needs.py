"""What the commands in tools/ say on a machine that lacks what they need."""
from __future__ import annotations

import os
import shutil

from tests.lib.answer import Answer, run
from tests.tools.made_up_kit import KitTest


class Needs(KitTest):
    def answer(self, tool: str, *programs: str) -> Answer:
        """What a tool answers if there are only these programs, and a few of the base system."""
        for name in ("dirname", "tail", *programs):
            place = self.path("programs", name)
            os.makedirs(os.path.dirname(place), exist_ok=True)
            if not os.path.lexists(place):
                os.symlink(str(shutil.which(name)), place)
        environment = {"PATH": self.path("programs"), "PYTHONDONTWRITEBYTECODE": "1"}
        return run(self.path("clone/tools", tool), [], env=environment, cwd=self.root)

    def says(self, tool: str, text: str, *programs: str) -> None:
        """It fails with one line; the gate's last line is there too."""
        done = self.answer(tool, *programs)
        self.assertEqual(done.status, 1, done)
        self.assertEqual(done.error_text.count("\n"), 1, done)
        self.assertIn(text, done.error_text)
        wanted = "0 passed, 1 failed\n" if tool == "test" else ""
        self.assertEqual(done.output_text, wanted, done)

    def test_what_is_not_installed(self) -> None:
        for tool in ("test", "quick", "build_unproved"):
            with self.subTest(tool):
                self.says(tool, f"tools/{tool}: python3 is not installed\n")
        for tool in ("test", "build_unproved"):
            with self.subTest(tool):
                self.says(tool, f"tools/{tool}: rt is not installed\n", "python3")
        self.says("quick", "--all needs no git\n", "python3")

    def test_a_module_of_python(self) -> None:
        """As where the system has only a part of Python's library."""
        self.write_rt("")
        self.write("clone/tests/lib/tally.py", "import no_such_module\n")
        self.write("clone/tools/lib/arguments.py", "import no_such_module\n")
        os.mkdir(self.path("programs"))
        os.symlink(self.path("stubs/rt"), self.path("programs/rt"))
        for tool in ("test", "quick", "build_unproved"):
            with self.subTest(tool):
                text = f"tools/{tool}: ModuleNotFoundError: No module named 'no_such_module'\n"
                self.says(tool, text, "python3")
