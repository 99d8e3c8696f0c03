"""The built programs that tests run: those that AIDE_PROGRAM names, or those of this repository."""
from __future__ import annotations

import os

from tests.lib.scratch import TOP

VARIABLE = "AIDE_PROGRAM"
BUILT = os.path.join(TOP, "crates", "aide", "out", "aide")


def find_program() -> str:
    """The whole path of the program `aide`. A test without one fails, and says how to get one."""
    return found(os.environ.get(VARIABLE) or BUILT)


def found(program: str) -> str:
    path = os.path.abspath(program)
    if not os.access(path, os.X_OK):
        raise AssertionError(
            f"no program {path}: run tools/build_unproved, then export {VARIABLE}={BUILT}-unproved"
        )
    return path


def find_planned_program() -> str:
    """The whole path of the program whose devices fail by a plan."""
    return found(beside(os.environ.get(VARIABLE) or BUILT, "aide_planned"))


def lines_program_of(program: str) -> str:
    """The whole path of the program of lines."""
    return beside(program, "aide_lines")


def beside(program: str, other: str) -> str:
    """The whole path of another program: in its own crate, or beside the program `aide`."""
    directory, name = os.path.split(os.path.abspath(program))
    if directory.endswith("/crates/aide/out"):
        directory = os.path.join(directory, "..", "..", other, "out")
    return os.path.abspath(os.path.join(directory, other + name[len("aide") :]))
