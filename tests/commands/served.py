"""Imports each module of the commands, and becomes the command in a child for each line that it
reads. A library that acts at a call begins to count there."""
from __future__ import annotations

import ctypes
import importlib
import json
import os
import pkgutil
import runpy
import sys

HERE = os.path.dirname(os.path.realpath(__file__))


def become(line: str, library: ctypes.CDLL) -> None:
    """This process gets what the line says, and files for its answer."""
    request = json.loads(line)
    os.environ.update(request["environment"])
    sys.argv = [f"{HERE}/aide-compare", *request["words"]]
    for number, path in enumerate(("/dev/null", "output", "errors")):
        file = os.open(path, os.O_RDWR | os.O_CREAT | os.O_TRUNC, 0o600)
        os.dup2(file, number)
        os.close(file)
    if hasattr(library, "begin"):
        library.begin()


def main() -> None:
    sys.dont_write_bytecode = True
    sys.path.insert(0, f"{HERE}/../lib")
    front = runpy.run_path(f"{HERE}/aide-compare", run_name="front")
    package = importlib.import_module("aide_compare")
    for module in pkgutil.walk_packages(package.__path__, "aide_compare."):
        importlib.import_module(module.name)
    library = ctypes.CDLL(None)
    for line in sys.stdin:
        child = os.fork()
        if not child:
            become(line, library)
            front["become_command"]()
        print(os.waitstatus_to_exitcode(os.waitpid(child, 0)[1]), flush=True)


if __name__ == "__main__":
    main()
