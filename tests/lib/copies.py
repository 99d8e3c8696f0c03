"""Copies of what the tests read, in which a module may be changed, and the byte code of the
commands, which they never write."""
from __future__ import annotations

import os
import shutil
import subprocess

from tests.lib.scratch import TOP

# The variable of the environment that names a copy of the commands, which the gate makes once.
COMPILED = "AIDE_COMPILED_COMMANDS"
NONE = subprocess.DEVNULL
COMPILE = "/usr/bin/python3 -IS -m compileall -q -f --invalidation-mode checked-hash".split()


def copy_directory(source: str, target: str) -> None:
    """Copies a directory without byte code, for every user to read, whatever the umask was."""
    shutil.copytree(source, target, ignore=shutil.ignore_patterns("__pycache__"))
    subprocess.run(["chmod", "-R", "a+rX", target], check=True)


def compile_modules(*paths: str) -> None:
    """Compiles modules, and those below directories: without byte code each start of a command
    compiles them. Where one is edited, only that is compiled at each start."""
    subprocess.run([*COMPILE, *paths], stdin=NONE, stdout=NONE, stderr=NONE, check=False)


def copy_commands(directory: str) -> None:
    """Copies the commands, with their byte code."""
    for name in ("bin", "lib", "share"):
        copy_directory(os.path.join(TOP, "commands", name), os.path.join(directory, name))
    compile_modules(os.path.join(directory, "lib"))
    os.chmod(directory, 0o755)


def copy_sources(directory: str) -> None:
    """Copies commands, examples, tests and tools into a directory."""
    for name in ("commands", "contrib", "examples", "tests", "tools"):
        copy_directory(os.path.join(TOP, name), os.path.join(directory, name))
    shutil.copy(os.path.join(TOP, "VERSION"), directory)
