"""aide-compare hosts report: what differs on all hosts, each change once, as text, as JSON, as a
page or as a mail."""
from __future__ import annotations

import os
from collections.abc import Iterable, Iterator, Sequence
from functools import partial

from aide_compare.base.ending import Fault, say, usage_fault, why_of, write_blocks
from aide_compare.base.escapes import encoded
from aide_compare.base.options import (
    ATTACH_PAGE,
    HOST_TIME,
    HOSTS_FILE,
    HOSTS_OPERAND,
    MAIL_TIME,
    MAX_RESULT_AGE,
    QUIET,
    RESULT_AGE,
    STORE,
    TO,
    WEEKLY,
    StoreRequest,
    field,
    option,
)
from aide_compare.base.parser import Help, read
from aide_compare.base.program import FRONT, find_installed
from aide_compare.base.words import counted
from aide_compare.commands.mail import send_heartbeat
from aide_compare.hosts.canary import notes_of
from aide_compare.hosts.fleet import Fleet
from aide_compare.hosts.hosts_page import hosts_page
from aide_compare.hosts.hosts_file import hosts_of, is_name_of_host
from aide_compare.hosts.hosts_read import read_host
from aide_compare.hosts.hosts_text import Report, headline, report_lines, short_lines
from aide_compare.hosts.report_values import CUT, UNREADABLE, HostCounts, Summary
from aide_compare.mail.message import build, clean, host_name
from aide_compare.mail.sending import deliver, transport_for
from aide_compare.show.json_lines import line_of

HELP = Help(
    name="aide-compare hosts report",
    usage="%(prog)s [OPTIONS] [HOSTS-FILE | HOST]",
    description="""\
Reports what differs on the hosts of HOSTS-FILE, or on HOST, as aide-compare hosts compare found it:
which hosts were not compared, and each change once with the hosts that have it.""",
    epilog="""\
Status, the highest of all hosts: 0 nothing to read, 1 to 7 changes that are not
silent, above 7 some host was not compared. 15, 18 or 22 if the command itself fails.""",
)
MAX_NAMES = 20  # Of the hosts of a change, for people.
# The page that a mail may have. It leaves out changes that have no room, and says how many.
MAX_MAILED_PAGE = 500000


class ReportRequest(StoreRequest):
    """What the options ask for."""

    is_quiet: bool = field(QUIET, help="print nothing if there is nothing to report")
    max_age: int = field(
        RESULT_AGE,
        help="a host that was compared longer ago counts as not compared (26h; 0: no limit)",
    )
    seconds: int = field(HOST_TIME, help="how long to wait for a run over a host (10m)")
    format: str | None = option(
        "--format",
        "text (the default), brief: 80 lines, json: an object a line, or page: for a browser",
        choices=("text", "brief", "json", "page"),
    )
    address: str | None = field(
        TO,
        help="mail the brief text, if there is something to report",
    )
    has_page: bool = field(ATTACH_PAGE, help="with --to: attach the page to the text")
    mail_seconds: int = field(MAIL_TIME)
    weekly: str | None = field(
        WEEKLY,
        help="with --to: send a heartbeat on a day of the week, such as Mon, if there is nothing to"
        " report",
    )
    hosts_file: str = field(HOSTS_OPERAND)


def command_words(request: ReportRequest) -> list[str]:
    """The command that prints all that this one leaves out, also for those who read later."""
    words = [find_installed(FRONT), "hosts", "report"]
    if request.store != STORE:
        words += ["--store", os.path.abspath(request.store)]
    if not 0 < request.max_age <= MAX_RESULT_AGE:
        words += ["--max-age", str(request.max_age)]
    path = request.hosts_file
    if path == "-" or is_name_of_host(path):
        words.append(path)
    elif path != HOSTS_FILE:
        words.append(os.path.abspath(path))
    return words


class HostsReport:
    """The report of all hosts, and the ways in which it is given."""

    def __init__(self, names: Sequence[str], request: ReportRequest) -> None:
        self.fleet = Fleet(names)
        hosts = []
        for number, name in enumerate(names):
            take = partial(self.fleet.add, number)
            hosts.append(read_host(name, request.store, request.seconds, request.max_age, take))
        self.fleet.gather()
        self.worst = max(host.status for host in hosts)
        notes, is_unlisted = notes_of(request.store, hosts)
        # Silent differences are no reason for a mail.
        self.is_alarm = is_unlisted or any(host.differs or host.status > 7 for host in hosts)
        summary = Summary(
            counts=HostCounts.of([(host.status, host.is_silent) for host in hosts]),
            cut=sum(host.report == CUT for host in hosts),
            not_listed=sum(host.report == UNREADABLE for host in hosts),
            changes=len(self.fleet),
            canary=notes,
        )
        shared = partial(self.fleet.shared, max_names=MAX_NAMES)
        self.report = Report(summary, hosts, self.fleet, shared, command_words(request))

    def json(self) -> Iterator[bytes]:
        """Yields the lines of JSON, the changes in the order of paths."""
        hosts = self.report.hosts
        for fields in (self.report.summary.fields(), *(host.fields() for host in hosts)):
            yield line_of(fields)
        for place in self.fleet.places(order="place"):
            yield line_of(self.fleet.shared(place, len(hosts)).fields)

    def brief(self) -> Iterator[bytes]:
        """Yields the lines of the short text."""
        return map(as_line, short_lines(self.report))

    def message(self, request: ReportRequest, address: str) -> bytes:
        """The mail about all hosts."""
        attached = None
        if request.has_page:
            attached = b"".join(hosts_page(self.report, MAX_MAILED_PAGE))
        text = clean(b"".join(self.brief()))
        return build(address, headline(self.report.summary), text, attached)

    def send(self, request: ReportRequest, address: str, message: bytes) -> None:
        """Sends the mail about all hosts; if there is nothing to say, a heartbeat if one is due."""
        way = transport_for(headline(self.report.summary), request.mail_seconds)
        if self.is_alarm:
            deliver(way, message)
        elif request.weekly:
            counts = self.report.summary.counts
            subject = f"aide on {counted(counts.hosts, 'host')}: nothing to read"
            text = clean(f"{counts.headline()}, {counts.others()}\n")
            beat = partial(deliver, way, build(address, subject, text))
            send_heartbeat(f"{request.store}/report.quiet", request.weekly, beat)

    def parts(self, form: str) -> Iterable[bytes]:
        """The bytes of the report in a format."""
        if form == "brief":
            return self.brief()
        if form == "json":
            return self.json()
        if form == "page":
            return hosts_page(self.report)
        return map(as_line, report_lines(self.report))


def as_line(text: str) -> bytes:
    return encoded(f"{text}\n")


def request_of(arguments: Sequence[str]) -> ReportRequest:
    request = read(ReportRequest, arguments, HELP)
    if request.format and request.address:
        raise usage_fault("--format does not go with --to")
    is_of_mail = request.has_page or request.weekly or request.mail_seconds != MAIL_TIME.default
    if is_of_mail and not request.address:
        raise usage_fault("--attach-page, --weekly and --mail-time go with --to")
    return request


def send_failure(why: str, request: ReportRequest, address: str) -> None:
    """Mails why there is no report. If that fails, says so."""
    title = f"aide on {host_name()}: no report of hosts"
    try:
        way = transport_for(f"{title}: {why}", request.mail_seconds)
        deliver(way, build(address, title, clean(f"{why}\n")))
    except Fault as fault:
        say(fault.text)


def main(arguments: Sequence[str]) -> int:
    request = request_of(arguments)
    address = request.address
    message = b""
    try:
        report = HostsReport(hosts_of(request.hosts_file, request.store), request)
        if address and report.is_alarm:
            message = report.message(request, address)
    except Exception as error:
        if address:
            send_failure(why_of(error), request, address)
        raise
    if address:
        report.send(request, address, message)
    elif report.is_alarm or not request.is_quiet:
        write_blocks(1, report.parts(request.format or "text"))
    return report.worst
