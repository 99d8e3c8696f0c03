"""How the shell scripts here are written: shellcheck finds nothing to change in them."""
from __future__ import annotations

import os
import subprocess
import tempfile
from typing import Any


from tests.lib.answer import run
from tests.lib.program_test import StatedTest
from tests.lib.scratch import TOP

SHELLS = (b"#!/bin/sh", b"#!/bin/bash", b"#!/usr/bin/env bash")


def scripts() -> list[str]:
    """The scripts of the repository, by their first lines."""
    found = []
    for directory, directories, names in os.walk(TOP):
        directories[:] = [name for name in directories if name not in (".git", "out", "crates")]
        for name in names:
            path = os.path.join(directory, name)
            if os.path.isfile(path) and not os.path.islink(path):
                with open(path, "rb") as file:
                    if file.read(64).startswith(SHELLS):
                        found.append(path)
    return sorted(found)


class Shell(StatedTest):
    def test_scripts(self) -> None:
        self.needs("shellcheck")
        found = scripts()
        self.assertGreater(len(found), 9)
        self.check("-x", *found)

    def test_completions(self) -> None:
        """As they are made."""
        self.needs("shellcheck")
        with tempfile.TemporaryFile() as made:
            run(os.path.join(TOP, "packaging/completions"), [], stdout=made)
            made.seek(0)
            self.check("-", stdin=made)

    def check(self, *words: str, **more: Any) -> None:
        answer = run("shellcheck", words, cwd=TOP, stderr=subprocess.STDOUT, **more)
        self.assertEqual(answer.status, 0, answer.output_text)
