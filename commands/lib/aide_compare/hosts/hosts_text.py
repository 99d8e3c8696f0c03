"""The report of all hosts as text: which were not compared, and each change with its hosts.

The whole text has all values. The short one, which a mail has too, has a line for a change, and so
many lines and columns that people read it.
"""
from __future__ import annotations

from collections.abc import Callable, Iterable, Iterator, Sequence
from functools import partial
from typing import NamedTuple

from aide_compare.base.escapes import guarded
from aide_compare.base.words import SEVERITIES, capitalized, counted
from aide_compare.hosts.fleet import OF_HOSTS, Fleet
from aide_compare.hosts.hosts_read import words_of
from aide_compare.hosts.report_values import CUT, UNREADABLE, Host, SharedChange, Summary
from aide_compare.lines.attributes import word_of
from aide_compare.mail.columns import command_lines, note_lines
from aide_compare.show.changes import change_lines
from aide_compare.show.digest import MAIL, Room, entry_line, open_lines, shortened
from aide_compare.show.entry import entry_words

MAX_ROWS = 80
MAX_COLUMNS = 80
# Of a short text: the lines for hosts that were not compared, for hosts whose changes were cut, and
# the columns for the names of the hosts of a change.
MAX_MISSING = 12
MAX_CUT = 6
NAMES_WIDTH = 18
# A host has one of so many parts of the lines, or less if more of them have something to list.
PARTS = 8
WHY = {
    CUT: "its changes were cut",
    UNREADABLE: "its changes cannot be read, or are too many",
}
ORDER = "the most severe first"


class Report(NamedTuple):
    """What a text or a page is made of."""

    summary: Summary
    hosts: list[Host]
    fleet: Fleet  # The changes.
    shared: Callable[[int], SharedChange]  # By its place.
    command: Sequence[str]  # The words of the command that prints the whole text.


def headline(summary: Summary) -> str:
    return f"aide on {summary.counts.headline()}"


def canary_lines(summary: Summary) -> list[str]:
    """Beside which host the others were compared, or why they were not; nothing without a
    canary."""
    return list(map(capitalized, summary.canary))


def not_listed(host: Host) -> str:
    total = "?" if host.open is None else str(host.open)
    line = f"{host.name}: {WHY[host.report]}; {host.listed} of {total} changes are listed"
    if host.high:
        line += f"; {host.high} of all are high"
    return line


def host_lists(hosts: Iterable[Host]) -> dict[str, list[str]]:
    """The lists of hosts, each with its title.

    Those that were not compared and why, those of which not all is listed, and all that differ.
    """
    missing: list[str] = []
    cut: list[str] = []
    differ: list[str] = []
    for host in hosts:
        if host.status > 7:
            missing.append(f"{host.name}: {host.error}")
        elif host.differs and host.state:
            digest = f"SHA-256 {host.state.new_sha256}"
            differ.append(f"{host.name}: {words_of(host.state)}; {digest}")
            if host.report in WHY:
                cut.append(not_listed(host))
    return {
        "Not compared": missing,
        "Not all changes are listed": cut,
        "Hosts that differ": differ,
    }


def shared_lines(shared: SharedChange, hosts: int) -> Iterator[str]:
    """The lines of a change in the whole text: which hosts have it, and its values. An old value
    that is not the same on all of them is not shown."""
    yield ""
    yield f"{shared.severity} on {shared.hosts} of {hosts} hosts: {shared.names_text()}"
    yield from (line[:-1] for line in change_lines(shared.change, shared.various))
    if shared.per_host:
        yield f"    of each host: {', '.join(map(word_of, shared.per_host))}"


def report_lines(report: Report) -> Iterator[str]:
    """Yields the lines of the whole text."""
    summary = report.summary
    yield from canary_lines(summary)
    if summary.canary:
        yield ""
    yield f"{headline(summary)}, {summary.counts.others()}"
    for title, lines in host_lists(report.hosts).items():
        yield from list_lines(title, lines)
    if summary.changes:
        yield ""
        yield f"{counted(summary.changes, 'different change')}, {ORDER}:"
    for shared in map(report.shared, report.fleet.places()):
        yield from shared_lines(shared, summary.counts.hosts)


def short_names(shared: SharedChange) -> str:
    """The hosts of a change in few columns, such as "www1, www2 +35"."""
    for number in range(len(shared.names), 0, -1):
        text = ", ".join(shared.names[:number]) + more_hosts(shared.hosts - number)
        if len(text) <= NAMES_WIDTH:
            return text
    more = more_hosts(shared.hosts - 1)
    return shortened(shared.names[0], NAMES_WIDTH - len(more)) + more


def more_hosts(count: int) -> str:
    if not count:
        return ""
    return f" +{count}"


def grouped_lines(report: Report, places: Iterable[int]) -> Iterator[str]:
    """The lines of some changes, with those of the same hosts together, of which only the first one
    names them."""
    groups: dict[tuple[str, ...], list[SharedChange]] = {}
    for shared in map(report.shared, places):
        groups.setdefault((*shared.names, str(shared.hosts)), []).append(shared)

    for group in groups.values():
        names = short_names(group[0])
        for shared in group:
            words = entry_words(shared.change, shared.per_host)
            yield entry_line(shared.change, words, f"  {names:<{NAMES_WIDTH}}  ", MAX_COLUMNS)
            names = ""


def list_lines(title: str, lines: Sequence[str], rows: int = 0) -> Iterator[str]:
    """A list of hosts after an empty line, with its title and how many there are; of a short text
    so many rows at most."""
    if not lines:
        return
    yield ""
    yield f"{title} ({len(lines)}):"
    first = lines
    if 0 < rows < len(lines):
        first = lines[: rows - 1]
    for line in map(guarded, first):
        if rows:
            line = shortened(line, MAX_COLUMNS - len("  "))
        yield f"  {line}"
    if len(lines) > len(first):
        yield f"  and {len(lines) - len(first)} more"


def room_of(report: Report, height: int) -> Room:
    """The room of a text or a page with so many lines for changes: a host has an eighth, or less if
    more hosts have something to list, before the others have more."""
    share = max(height // max(PARTS, report.summary.counts.differ), 1)
    return MAIL._replace(height=height, few=(height,) * 3, first=share, questions=OF_HOSTS)


def short_changes(report: Report, height: int) -> Iterator[str]:
    """At most so many lines for changes."""

    def on_host(number: int, width: int) -> str:
        return f"on {shortened(report.hosts[number].name, width - 3)}"

    room = room_of(report, height - len(SEVERITIES))
    return open_lines(report.fleet.table, room, on_host, partial(grouped_lines, report))


def short_lines(report: Report) -> Iterator[str]:
    """Yields the lines of the short text, at most MAX_ROWS of at most MAX_COLUMNS, but for a long
    word of the command."""
    summary = report.summary
    lists = host_lists(report.hosts)
    head = note_lines(canary_lines(summary))
    if head:
        head.append("")
    head += [headline(summary), summary.counts.others()]
    head += list_lines("Not compared", lists["Not compared"], MAX_MISSING)
    head += list_lines("Not all listed", lists["Not all changes are listed"], MAX_CUT)
    yield from head
    if summary.changes:
        yield ""
        # Two empty lines, and the command at the end.
        yield from short_changes(report, MAX_ROWS - len(head) - 7)
    yield ""
    yield "All hosts, and all changes with their values:"
    yield from command_lines(report.command)
