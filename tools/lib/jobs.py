"""How many checks may run at a time: by the processors, and by the memory that is free."""
from __future__ import annotations

import os
import re

# Of each version of control groups: where they are, the file of the limit, and the names in
# memory.stat of what cannot be given back.
OLD = ("sys/fs/cgroup/memory", "memory.limit_in_bytes", ("total_rss", "total_shmem"))
NEW = ("sys/fs/cgroup", "memory.max", ("anon", "shmem"))


def jobs(bytes_each: int) -> int:
    """How many checks may run at a time if each takes so much memory: at least one, and at most one
    for each processor that this process may use."""
    return max(1, min(len(os.sched_getaffinity(0)), free_memory() // bytes_each))


def free_memory(root: str = "/") -> int:
    """The bytes that are free: what the machine has, or less if a control group of this process is
    limited. `root` is where the files of the kernel are."""
    free = [_numbers(root, "proc/meminfo")["MemAvailable:"] * 1024]
    for line in _text(root, "proc/self/cgroup").splitlines():
        _, controllers, path = line.split(":", 2)
        if "memory" in controllers.split(","):
            free += _free_in_groups(root, path, *OLD)
        elif not controllers:
            free += _free_in_groups(root, path, *NEW)
    return max(0, min(free))


def _free_in_groups(
    root: str, path: str, mounted: str, limit: str, kept: tuple[str, ...]
) -> list[int]:
    """What is free in a group and in each one above it that has a limit."""
    free = []
    names = [name for name in path.split("/") if name.strip(".")]
    for count in range(len(names) + 1):
        group = os.path.join(mounted, *names[:count])
        text = _text(root, group, limit).strip()
        if re.fullmatch("[0-9]+", text):
            used = _numbers(root, group, "memory.stat")
            free.append(int(text) - sum(used.get(name, 0) for name in kept))
    return free


def _text(root: str, *names: str) -> str:
    """The text of a file of the kernel; none if it is not there."""
    try:
        with open(os.path.join(root, *names), encoding="ascii", errors="replace") as file:
            return file.read()
    except OSError:
        return ""


def _numbers(root: str, *names: str) -> dict[str, int]:
    """The numbers in a file of the kernel, each after its name."""
    found = re.findall(r"^(\S+)\s+([0-9]+)", _text(root, *names), re.M)
    return {name: int(number) for name, number in found}
