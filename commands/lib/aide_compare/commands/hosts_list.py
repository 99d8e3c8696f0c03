"""aide-compare hosts list: the watched hosts, each with its last result."""
from __future__ import annotations

from collections.abc import Sequence

from aide_compare.base.ending import Status, tell
from aide_compare.base.escapes import guarded
from aide_compare.base.options import HOSTS_OPERAND, RESULT_AGE, StoreRequest, field
from aide_compare.base.parser import Help, read
from aide_compare.base.words import date_of
from aide_compare.hosts.hosts_file import hosts_of
from aide_compare.hosts.hosts_read import read_host, words_of
from aide_compare.hosts.report_values import Host

HELP = Help(
    name="aide-compare hosts list",
    usage="%(prog)s [OPTIONS] [HOSTS-FILE | HOST]",
    description="""\
Prints a line for each host of HOSTS-FILE, or for HOST: its name, its last status, and the counts,
or why it was not compared.""",
    epilog="""\
Status: 0 listed, whatever the lines say; 15 bad arguments; 18 HOSTS-FILE cannot be read, or names
none.""",
)


class ListRequest(StoreRequest):
    """What the options ask for."""

    max_age: int = field(RESULT_AGE)
    hosts_file: str = field(HOSTS_OPERAND)


def line_of(host: Host) -> str:
    text = host.error
    if host.state and host.status <= 7:
        text = f"{words_of(host.state)}, {date_of(host.state.time)}"
    return guarded(f"{host.name} {host.status} {text}")


def main(arguments: Sequence[str]) -> int:
    request = read(ListRequest, arguments, HELP)
    for name in hosts_of(request.hosts_file, request.store):
        tell(line_of(read_host(name, request.store, request.seconds, request.max_age)))
    return Status.OK
