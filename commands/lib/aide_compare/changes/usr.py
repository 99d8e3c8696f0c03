"""Paths through the directories that may be links to the same name in /usr, such as /bin."""
from __future__ import annotations

import os
from collections.abc import Callable
from contextlib import suppress

MERGED = (b"/bin", b"/lib", b"/lib32", b"/lib64", b"/libx32", b"/sbin")


def link_here(path: bytes) -> bytes | None:
    """Where a link on this machine points to, None if the path is none."""
    with suppress(OSError):
        return os.readlink(path)
    return None


def usr_of(link: Callable[[bytes], bytes | None]) -> Callable[[bytes], bytes]:
    """A function that gives a path with these directories followed where they are such links.
    `link` gives where a path points to."""
    merged = {
        path: b"/usr" + path for path in MERGED if link(path) in (b"usr" + path, b"/usr" + path)
    }

    def followed(path: bytes) -> bytes:
        top = path[: len(path[1:].partition(b"/")[0]) + 1]
        return merged.get(top, top) + path[len(top) :]

    return followed
