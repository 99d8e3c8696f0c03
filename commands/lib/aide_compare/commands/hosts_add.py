"""aide-compare hosts add: fetches the first database of a host, asks whether it is right, or is
given its SHA-256, and watches the host from then on."""
from __future__ import annotations

import os
from collections.abc import Sequence
from functools import partial

from aide_compare.base.ending import Fault, OSErrorAsFault, Status, status_of, tell
from aide_compare.base.files import reopened
from aide_compare.base.options import HOSTS_OPTION, QUIET, SHA256, StoreRequest, Operand, field
from aide_compare.base.parser import Help, read
from aide_compare.base.processes import limit_memory, limit_time
from aide_compare.base.terminal import answer_to
from aide_compare.compare.soundness import refuse_unsound
from aide_compare.compare.unpack import Opened, copy_opened
from aide_compare.hosts.fetching import DATABASE, ask_for_key, fetch
from aide_compare.hosts.hosts_file import add_host
from aide_compare.hosts.store import BASELINE, MAX_BASELINE, MAX_MEMORY, NEW_FILE, HostDirectory
from aide_compare.hosts.store import check_name

HELP = Help(
    name="aide-compare hosts add",
    usage="%(prog)s [OPTIONS] HOST ...",
    description="""\
Fetches the first database of each HOST by ssh, which asks for itself if it does not know the key of
HOST. Then it shows the SHA-256 of the database, and asks. After yes the database is the baseline,
and HOST is in the file of hosts. With a SHA-256 nothing is asked.""",
    epilog="""\
Status, the highest of all hosts: 0 HOST is watched; 15 bad arguments, or no terminal;
18 HOST was not fetched or not added, or its gzip is damaged; 24 the answer was no, it is another
database, there is a baseline of HOST already, or it sent no sound database.""",
)


class AddRequest(StoreRequest):
    """What the options ask for."""

    is_quiet: bool = field(QUIET, help="do not print what was done")
    hosts_file: str = field(HOSTS_OPTION)
    digest: str | None = field(
        SHA256, help="of one HOST: what its own zcat -f FILE | sha256sum has said"
    )
    hosts: Sequence[str] = field(Operand("HOST", "its name for ssh", "+"))


def ask(host: str, sha256: str) -> None:
    """Shows what was fetched from a host. Any other answer than yes is a Fault."""
    tell(
        f"The database of {host} has this SHA-256:",
        f"    {sha256}",
        f"Compare with what this says on {host}:",
        f"    zcat -f {DATABASE} | sha256sum",
    )
    question = f"Is it the same? Then {host} is watched from now on. yes or no: "
    with OSErrorAsFault(f"{host}: cannot ask on the terminal"):
        answer = answer_to(question)
    if answer != "yes":
        raise Fault(Status.DATABASE, f"{host}: the answer was not yes, so it was not added")


def refuse_wrong(request: AddRequest, directory: HostDirectory, descriptor: int) -> None:
    """Refuses what a host has sent if it is not the right database."""
    opened = Opened("new", directory.file(NEW_FILE), reopened(descriptor, os.O_RDONLY))
    limit_time(request.seconds, directory.host)
    try:
        copy = copy_opened(opened, MAX_BASELINE)
        refuse_unsound(copy)
    finally:
        limit_time(0)
    if not request.digest:
        ask(directory.host, copy.sha256)
    elif not copy.sha256.startswith(request.digest):
        text = f"sent another database, with the SHA-256 {copy.sha256}: nothing was added"
        raise directory.fault(text, Status.DATABASE)


def add(request: AddRequest, host: str) -> int:
    """Fetches from a host, and keeps it if it is the right database: nothing is left of another
    one, also if a signal ends the question, and of a host that is not watched then no more than a
    lock, after a signal. A baseline that is there already is never replaced."""
    directory = HostDirectory(request.store, host, request.seconds)
    if directory.has(BASELINE):
        text = "has a baseline already; nothing was accepted. If it is not in the file of hosts,"
        text += f" write its name there, or begin anew: aide-compare hosts remove {host}"
        raise directory.fault(text, Status.DATABASE)
    is_new = directory.is_new()
    try:
        if not request.digest:
            ask_for_key(directory)
        fetch(directory, 1, partial(refuse_wrong, request, directory))
        add_host(directory.host, request.hosts_file)
    except BaseException:
        if is_new:
            directory.remove_all()
        raise
    with OSErrorAsFault(f"{host}: cannot keep its baseline"):
        directory.copy(NEW_FILE, BASELINE)
    directory.not_compared("was never compared")
    if not request.is_quiet:
        tell(f"{directory.host} is watched. Compare all hosts: aide-compare hosts compare")
    return Status.OK


def main(arguments: Sequence[str]) -> int:
    request = read(AddRequest, arguments, HELP)
    for host in request.hosts:
        check_name(host)
    if request.digest and len(request.hosts) > 1:
        raise Fault(Status.USAGE, "--sha256 is that of one HOST")
    if not request.digest and not os.isatty(0):
        raise Fault(Status.USAGE, "it asks a question, so it needs a terminal, or --sha256")
    limit_memory(MAX_MEMORY)
    return max([status_of(partial(add, request, host)) for host in request.hosts])
