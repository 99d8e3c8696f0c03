"""aide-compare hosts remove: a host is watched no longer, and what was kept of it is removed."""
from __future__ import annotations

import os
from collections.abc import Sequence
from contextlib import closing, suppress

from aide_compare.base.ending import DeviceFault, OSErrorAsFault, Status, tell
from aide_compare.base.escapes import shown
from aide_compare.base.files import is_missing
from aide_compare.base.options import HOSTS_OPTION, QUIET, StoreRequest, Operand, field
from aide_compare.base.parser import Help, read
from aide_compare.hosts.hosts_file import remove_host
from aide_compare.hosts.store import HostDirectory, check_name

HELP = Help(
    name="aide-compare hosts remove",
    usage="%(prog)s [OPTIONS] HOST",
    description="""\
Takes HOST out of the file of hosts, and removes its baseline, its databases, its changes and its
state. A new HOST of this name begins with aide-compare hosts add.""",
    epilog="""\
Its key stays: ssh-keygen -R HOST without a user, or its HostName, removes it from known_hosts; with
another port than 22 it is '[NAME]:PORT'.

Status: 0 removed; 15 bad arguments; 18 there is no such host, or something could not be
removed.""",
)


class RemoveRequest(StoreRequest):
    """What the options ask for."""

    is_quiet: bool = field(QUIET, help="do not print what was done")
    hosts_file: str = field(HOSTS_OPTION)
    host: str = field(Operand("HOST", "its name"))


def remove_directory(host: str, store: str, seconds: int) -> bool:
    """Removes what a store keeps of a host. Whether there was something."""
    if is_missing(f"{store}/hosts/{host}"):
        return False
    with closing(HostDirectory(store, host, seconds)) as directory:
        with OSErrorAsFault(f"cannot remove the state of {host}"), suppress(FileNotFoundError):
            os.unlink(directory.state_path)
        directory.remove_all()  # Last, since a second run finds by it what is left.
    return True


def main(arguments: Sequence[str]) -> int:
    request = read(RemoveRequest, arguments, HELP)
    host = check_name(request.host)
    was_listed = remove_host(host, request.hosts_file)
    was_kept = remove_directory(host, request.store, request.seconds)
    if not was_listed and not was_kept:
        raise DeviceFault(
            f"{host} is not in {shown(request.hosts_file)}, and nothing is kept of it",
        )
    if not request.is_quiet:
        tell(
            f"{host} is watched no longer. Its key stays:"
            f" ssh-keygen -R {host.rpartition('@')[2]}, or its HostName, removes it from"
            " known_hosts; with another port than 22 it is '[NAME]:PORT'"
        )
    return Status.OK
