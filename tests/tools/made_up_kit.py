"""A made-up toolchain, and a copy of the tools that runs it: nothing is translated or proved."""
from __future__ import annotations

import os
import shutil
import sys
from typing import Any

from tests.lib.answer import Answer, run
from tests.lib.copies import copy_directory
from tests.lib.program_test import ScratchTest
from tests.lib.scratch import TOP

# What stands for the compiler and the linker: a translation that is not whole is refused, and so is
# one without a beginning of a program.
CLANG = """#!/bin/sh
while [ $# -gt 1 ]; do
    case $1 in -o) to=$2 ;; *.bc) from=$1 ;; esac
    shift
done
case $to in '') to=$1 ;; esac
grep -q '^end$' "$from" && cp "$from" "$to"
"""
LINKER = """#!/bin/sh
for word; do
    case $word in *module.o) from=$word ;; esac
    case $before in -o) to=$word ;; esac
    before=$word
done
grep -q '^main$' "$from" && { echo '#!/bin/sh'; grep -v '^main$\\|^end$' "$from"; } > "$to" && chmod 755 "$to"
"""


class KitTest(ScratchTest):
    """A test over crates that a table names, with a toolchain whose answers the test writes."""

    def setUp(self) -> None:
        super().setUp()
        for name in ("tools", "tests/lib"):
            copy_directory(os.path.join(TOP, name), self.path("clone", name))
        shutil.copy(os.path.join(TOP, "tests/__init__.py"), self.path("clone/tests"))
        self.write(
            "clone/crates.txt",
            "low:\nhigh: low\naside:\naide: high\naide_lines: high aside\naide_planned: high\n",
        )
        for name in ("low", "high", "aside"):
            self.write(f"clone/crates/{name}/src/lib.rt", "//! A library.\n")
        for name in ("aide", "aide_lines", "aide_planned"):
            self.write(f"clone/crates/{name}/src/main.rt", "//! A program.\n")
        self.write("kit/START-HERE.md", "Read this.\n")
        self.write("kit/toolchain/bin/clang", CLANG, 0o755)
        self.write("kit/toolchain/bin/ld.lld", LINKER, 0o755)

    def write_rt(self, body: str) -> None:
        """The command of the toolchain: `doc` says where it is, and the rest is the test's."""
        page = self.path("kit/START-HERE.md")
        self.write("stubs/rt", f'#!/bin/sh\n[ "$1" != doc ] || exec echo {page}\n{body}\n', 0o755)

    def environment(self) -> dict[str, str]:
        path = f"{self.path('stubs')}:{os.environ['PATH']}"
        return {**os.environ, "PATH": path, "PYTHONDONTWRITEBYTECODE": "1"}

    def run_tool(self, module: str, *words: str, **more: Any) -> Answer:
        command = [sys.executable, "-S", "-m", module, *words]
        more.setdefault("env", self.environment())
        return run(command[0], command[1:], cwd=self.path("clone"), **more)
