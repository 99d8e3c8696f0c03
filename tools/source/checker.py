"""Where the toolchain is, and which crates stand on which."""
from __future__ import annotations

import importlib.machinery
import importlib.util
import os
import subprocess
import sys
from types import ModuleType

TOP = os.path.dirname(os.path.dirname(os.path.dirname(os.path.abspath(__file__))))


def libraries() -> dict[str, list[str]]:
    """The libraries that each crate uses, by crates.txt."""
    with open(os.path.join(TOP, "crates.txt"), encoding="utf-8") as file:
        lines = [line.split(":") for line in file if ":" in line and not line.startswith("#")]
    return {crate.strip(): names.split() for crate, names in lines}


def kit() -> str:
    """The folder of the toolchain: that of the page which `rt doc` names."""
    try:
        page = subprocess.run(["rt", "doc"], stdout=subprocess.PIPE, check=True, text=True).stdout
    except (OSError, subprocess.CalledProcessError) as error:
        sys.exit(f"`rt doc` does not say where the toolchain is: {error}")
    return os.path.dirname(page.strip())


def rt_module() -> ModuleType | None:
    """The module whose functions `rt` runs. None if this toolchain has none, or another one."""
    path = os.path.join(kit(), "bin", "rtlib.py")
    loader = importlib.machinery.SourceFileLoader("rtlib", path)
    spec = importlib.util.spec_from_loader("rtlib", loader)
    if spec is None or not os.path.isfile(path):
        return None
    module = importlib.util.module_from_spec(spec)
    sys.modules["rtlib"] = module
    writes_none, sys.dont_write_bytecode = sys.dont_write_bytecode, True
    try:
        loader.exec_module(module)
    finally:
        sys.dont_write_bytecode = writes_none
    wanted = ("Crate", "guarded", "kit_sources", "lock")
    return module if all(hasattr(module, name) for name in wanted) else None


def below(crate: str, uses: dict[str, list[str]]) -> list[str]:
    """The crates of the repository that a crate stands on, each behind those that it stands on."""
    found: dict[str, None] = {}
    for name in uses.get(crate, []):
        if name in uses:
            found.update(dict.fromkeys([*below(name, uses), name]))
    return list(found)


def library_of(crate: str) -> str:
    """Where the built library of a crate is."""
    return os.path.join(TOP, "crates", crate, "out", "rlib")


def words_over(crate: str, uses: dict[str, list[str]], kit: str) -> list[str]:
    """The words by which the toolchain finds the built libraries of a crate, and its own logic."""
    words = []
    own = os.path.join(kit, "rlibs")
    for name in ["std", *uses[crate]]:
        place = library_of(name) if name in uses else own
        words += ["--extern", f"{name}={place}/{name}.rlib"]
    for place in [*map(library_of, below(crate, uses)), own]:
        words += ["-L", f"dependency={place}"]
    words += ["--antt-project", os.path.join(kit, "rattle", "logic", "antt-project.json")]
    return [*words, "--logic-built", os.path.join(kit, "logic_built")]


def changed(crate: str) -> float:
    """When a source of a crate was last written."""
    folders = os.walk(os.path.join(TOP, "crates", crate))
    files = [os.path.join(at, name) for at, _, names in folders for name in names]
    sources = [path for path in files if path.endswith((".rt", ".antt"))]
    return max((os.stat(path).st_mtime for path in sources), default=0)


def is_stale(crate: str, uses: dict[str, list[str]]) -> bool:
    """Whether the library of a crate is not built, or is older than a source that it stands on."""
    try:
        built = os.stat(os.path.join(library_of(crate), f"{crate}.rlib")).st_mtime
    except OSError:
        return True
    return any(changed(name) > built for name in [*below(crate, uses), crate])


def unproved(program: str) -> int:
    """How many crates are proved when a program is built: itself, and those below it that are
    stale."""
    uses = libraries()
    return 1 + sum(is_stale(name, uses) for name in below(program, uses))
