"""aide-compare hosts accept: what was fetched from a host becomes its baseline, by its digest, by
an answer on a terminal, or since all changes of the host are silent."""
from __future__ import annotations

import os
from collections.abc import Iterator, Sequence
from contextlib import closing
from functools import partial

from aide_compare.base.ending import DeviceFault, Fault, Status, status_of, tell, usage_fault
from aide_compare.base.ending import write_blocks
from aide_compare.base.escapes import shown
from aide_compare.base.files import is_missing
from aide_compare.base.options import (
    HOSTS_FILE,
    KEEP_OPEN,
    MAX_RESULT_AGE,
    QUIET,
    SHA256,
    StoreRequest,
    Operand,
    field,
    option,
)
from aide_compare.base.parser import Help, read
from aide_compare.base.paths import Pattern
from aide_compare.base.processes import limit_memory
from aide_compare.base.terminal import answer_to
from aide_compare.commands import accept, hosts_report
from aide_compare.commands.accept import YES, AcceptRequest
from aide_compare.hosts.canary import has_listed
from aide_compare.hosts.hosts_file import hosts_of
from aide_compare.hosts.hosts_read import read_host
from aide_compare.hosts.report_values import Host
from aide_compare.hosts.store import BASELINE, MAX_BASELINE, MAX_MEMORY, NEW_FILE, HostDirectory
from aide_compare.hosts.store import check_name

HELP = Help(
    name="aide-compare hosts accept",
    usage="%(prog)s [OPTIONS] HOST\n       %(prog)s --silent [OPTIONS] [HOSTS-FILE | HOST]",
    description="""\
Makes the database that was fetched from HOST its baseline. The former baseline is kept as
aide.db.previous. Without a digest, on a terminal, it prints the report of HOST and asks.""",
    epilog="Status: 0 accepted; 15, 18, 22 or 24 not, as by aide-compare accept.",
)


class HostAcceptRequest(StoreRequest):
    """What the options of `hosts accept` ask for."""

    is_quiet: bool = field(QUIET, help="do not print what was done")
    is_for_silent: bool = option(
        "--silent",
        "accept for each host of HOSTS-FILE that differed, by silent changes only, when it was"
        " compared last",
    )
    digest: str = field(
        SHA256,
        default="",
        help="the SHA-256 of the unpacked database that was read, or its first 16 digits or more",
    )
    keep_open: Sequence[Pattern] = field(
        KEEP_OPEN,
        help="all except the changes of these paths; see aide-compare accept",
    )
    host: str = field(Operand("HOST", f"its name for ssh; of --silent ({HOSTS_FILE})", "?", ""))

    def refuse_contradictions(self) -> None:
        """Refuses what means nothing without another word, or with it."""
        if self.is_for_silent:
            if self.digest or self.keep_open:
                raise usage_fault("--silent goes without --sha256 and --keep-open")
            return
        if not self.host:
            raise usage_fault("name a HOST, or give --silent for all whose changes are silent")
        can_ask = os.isatty(0) and os.isatty(1) and not self.is_quiet
        if not self.digest and not can_ask:
            words = f"aide-compare hosts report {shown(self.host, 200)}"
            text = f"give --sha256, which this prints: {words}; on a terminal it asks"
            raise usage_fault(text)


def accept_host(request: HostAcceptRequest, host: str, digest: str) -> int:
    """Makes what was fetched from a host its baseline, if it has this digest."""
    with closing(HostDirectory(request.store, host, request.seconds)) as directory:
        next_baseline = AcceptRequest(
            new=directory.file(NEW_FILE),
            baseline=directory.file(BASELINE),
            digest=digest,
            keep_open=request.keep_open,
            max_size=MAX_BASELINE,
            came="fetched",
        )
        return accept.run(next_baseline, request.is_quiet)


def digest_of(host: Host) -> str:
    """The SHA-256 of what a host has sent when it was compared last."""
    if host.status > 7 or host.state is None:
        text = f"{host.name}: nothing was compared, so nothing is accepted: {host.error}"
        raise DeviceFault(text)
    return host.state.new_sha256


def digest_after_question(request: HostAcceptRequest, name: str) -> str:
    """The SHA-256 that a person wants who has seen the report of a host."""
    words = [f"--store={request.store}", "--max-age=0", "--", name]
    report = hosts_report.HostsReport([name], hosts_report.request_of(words))
    (host,) = report.report.hosts
    digest = digest_of(host)
    write_blocks(1, report.parts("text"))
    tell("", f"SHA-256 {digest}")
    if answer_to(f"Make it the baseline of {host.name}? [y/N] ") not in YES:
        raise Fault(Status.DATABASE, "nothing is accepted")
    return digest


def reason_against(request: HostAcceptRequest, host: Host) -> str:
    """Why a host is not accepted without a question; an empty text if it is."""
    if not host.is_silent:
        return host.error or f"{host.open} open"
    with closing(HostDirectory(request.store, host.name, request.seconds)) as directory:
        if has_listed(directory):
            return "it was a canary within the last 7 days, and late hosts need its report"
    return ""


def silent_hosts(request: HostAcceptRequest) -> Iterator[Host]:
    """The hosts that differ by silent changes only, without a canary that others still need. Of all
    others that differ a line says why they are not accepted."""
    for name in hosts_of(request.host or HOSTS_FILE, request.store):
        host = read_host(name, request.store, request.seconds, MAX_RESULT_AGE)
        if not (host.status or host.is_silent):
            continue
        reason = reason_against(request, host)
        if not reason:
            yield host
        elif not request.is_quiet:
            tell(f"{host.name} is not accepted: {reason}")


def main(arguments: Sequence[str]) -> int:
    request = read(HostAcceptRequest, arguments, HELP)
    request.refuse_contradictions()
    if request.is_for_silent:
        hosts = list(silent_hosts(request))
        limit_memory(MAX_MEMORY)
        works = [partial(accept_host, request, host.name, digest_of(host)) for host in hosts]
        return max([Status.OK, *map(status_of, works)])
    host = check_name(request.host)
    if is_missing(f"{request.store}/hosts/{host}/{NEW_FILE}"):
        raise DeviceFault(f"{host}: nothing was fetched yet; see aide-compare hosts add --help")
    digest = request.digest or digest_after_question(request, host)
    limit_memory(MAX_MEMORY)
    return accept_host(request, host, digest)
