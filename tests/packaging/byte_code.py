"""The byte code of the tools: of each module as it is installed, and gone with it."""
from __future__ import annotations

import functools
import importlib.util
import os
import subprocess
from typing import Any

from tests.packaging.installation import InstallTest, files, tree

LIBRARY = "lib/aide-compare/python"
# The Python that the tools name in their first line.
PYTHON = "/usr/bin/python3"
# How byte code begins that is used only if the source's sum is in it (PEP 552).
CHECKED = b"\3\0\0\0"


@functools.lru_cache(maxsize=None)
def tag() -> str:
    """The part of a file's name that says which Python made the byte code."""
    words = [PYTHON, "-IS", "-c", "import sys; print(sys.implementation.cache_tag)"]
    return subprocess.run(words, stdout=subprocess.PIPE, check=True).stdout.decode().strip()


def wanted_of(found: dict[str, Any]) -> dict[str, bytes]:
    """The byte code that belongs to the modules of a tree, and the sum of each module in it."""
    wanted = {}
    for path, (_, data) in files(found).items():
        if path.endswith(".py"):
            folder, name = os.path.split(path)
            made = os.path.join(folder, "__pycache__", "%s.%s.pyc" % (name[:-3], tag()))
            wanted[made] = CHECKED + bytes(importlib.util.source_hash(data))
    return wanted


def holds_code(trial: InstallTest, name: str, folder: str, private: str) -> None:
    """Each module has its byte code, which has its sum, names no private folder, and is writable
    for its owner only."""
    found = tree(folder)
    wanted = wanted_of(found)
    given = {path: data for path, (_, data) in files(found).items() if "__pycache__/" in path}
    trial.assertEqual(given.keys() ^ wanted.keys(), set(), name + ": each module has byte code")
    trial.assertGreater(len(wanted), 60, name + ": there are modules")
    other = [path for path in given if given[path][4:16] != wanted.get(path)]
    trial.assertFalse(other, name + ": byte code has the sum of its module")
    named = [path for path in given if private.encode() in given[path]]
    trial.assertFalse(named, name + ": byte code names no private folder")
    wide = [
        path for path, (mode, data) in found.items() if mode != (0o755 if data is None else 0o644)
    ]
    trial.assertFalse(wide, name + ": modules and byte code are writable for their owner only")


def install(trial: InstallTest, name: str, source: str, prefix: str) -> None:
    wide = ["sh", "-c", 'umask 0; exec "$@"', "sh"]
    done = trial.install("--prefix", prefix, "--program", trial.program, source=source, shell=wide)
    trial.assertTrue(done.status == 0 and done.error_text == "", ("install " + name, done))
    holds_code(
        trial,
        "installed " + name,
        os.path.join(prefix, LIBRARY),
        os.environ.get("TMPDIR", "/tmp") + "/tmp.",
    )
