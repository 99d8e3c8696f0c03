"""The file of hosts: the name of a watched host in each line."""
from __future__ import annotations

import os
from collections.abc import Iterator
from contextlib import closing, contextmanager

from aide_compare.base.directories import open_directory
from aide_compare.base.ending import DeviceFault, OSErrorAsFault
from aide_compare.base.escapes import shown
from aide_compare.base.files import MAX_TRUSTED_BYTES, Lock, is_missing, read_whole, trusted_text
from aide_compare.base.replacement import replace
from aide_compare.hosts.store import NAME

WHAT = "the file of hosts"


def is_name_of_host(path: str) -> bool:
    """Whether it is a name, and no file in this directory."""
    return bool(NAME.fullmatch(path)) and is_missing(path)


def hosts_of(path: str, store: str) -> list[str]:
    """The names in a file, each once, or the name itself of a host that is watched."""
    data = b""
    if is_name_of_host(path):
        if is_missing(f"{store}/hosts/{path}"):
            text = f"there is no file {path}, and no host of this name is watched"
            raise DeviceFault(text, "the hosts that are: aide-compare hosts list")
        return [path]
    if path == "-":
        data = read_whole(0, MAX_TRUSTED_BYTES, WHAT)
    elif not is_missing(path):
        data = trusted_text(path, WHAT)
    lines = [line.strip() for line in data.decode("utf-8", "surrogateescape").split("\n")]
    names = list(dict.fromkeys(line for line in lines if line and not line.startswith("#")))
    if not names:
        raise DeviceFault(f"no host is in {shown(path)}: aide-compare hosts add adds one")
    return names


def lines_without(host: str, path: str) -> tuple[list[bytes], bool]:
    """The lines of a file without those of a host, and whether there was one. The last one is
    empty if the file has an end of its last line, or is missing."""
    lines = [b""]
    if not is_missing(path):
        lines = trusted_text(path, WHAT).split(b"\n")
    kept = [line for line in lines if line.strip() != host.encode()]
    return kept, kept != lines


@contextmanager
def locked(path: str) -> Iterator[None]:
    """A file that no other run changes meanwhile. Nobody else can write in its directory."""
    place, name = os.path.split(path)
    words = f"cannot write {WHAT} {shown(path)}: its directory"
    with open_directory(place or ".", make=True) as directory, OSErrorAsFault(words):
        if directory.others:
            raise DeviceFault(f"{words}: other users can write there")
        with closing(Lock(directory.fd, name)):
            yield


def add_host(host: str, path: str) -> None:
    """Adds a host at the end of a file that does not have it. The file is made if it is missing."""
    with locked(path):
        lines, is_there = lines_without(host, path)
        if not is_there:
            if lines[-1]:
                lines.append(b"")
            lines[-1:] = [host.encode(), b""]
            replace(path, b"\n".join(lines), what=WHAT)


def remove_host(host: str, path: str) -> bool:
    """Takes a host out of a file. Whether it was there."""
    if is_missing(path):
        return False
    with locked(path):
        lines, is_there = lines_without(host, path)
        if is_there:
            replace(path, b"\n".join(lines), what=WHAT)
    return is_there
