"""A command whose interpreter is started once: each run of it is a child of a process that has all
modules. For trials that need hundreds of runs of what a command does with files."""
from __future__ import annotations

import json
import os
import shutil
import subprocess
from typing import Any

from tests.lib.answer import Answer

from .sandbox import HERE, PYTHON, CommandTest


class Forked:
    """A command in the directory of a test, which starts with these variables."""

    def __init__(self, sandbox: CommandTest, tool: str, **environment: str) -> None:
        self.sandbox = sandbox
        self.words = tool.split(" ")[1:]
        served = shutil.copy(os.path.join(HERE, "served.py"), sandbox.path("bin/served"))
        self.process = subprocess.Popen(
            [PYTHON, "-IS", served],
            cwd=sandbox.root,
            env=sandbox.environment(**environment),
            stdin=subprocess.PIPE,
            stdout=subprocess.PIPE,
            text=True,
        )
        sandbox.addCleanup(self.process.communicate)

    def call(self, *words: str, **environment: Any) -> Answer:
        """What the command answers these words, with further variables of the environment."""
        settings = {name: str(value) for name, value in environment.items()}
        request = {"words": [*self.words, *words], "environment": settings}
        assert self.process.stdin and self.process.stdout
        self.process.stdin.write(json.dumps(request) + "\n")
        self.process.stdin.flush()
        status = int(self.process.stdout.readline())
        return Answer(self.sandbox.read("output"), self.sandbox.read("errors"), status)
