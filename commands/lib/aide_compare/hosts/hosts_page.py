"""The report of all hosts as one page: the counts, the hosts, and each change with the hosts that
have it."""
from __future__ import annotations

import shlex
from collections import Counter
from collections.abc import Iterator, Sequence

from aide_compare.base.escapes import guarded
from aide_compare.hosts.fleet import LEVELS
from aide_compare.hosts.hosts_text import (
    ORDER,
    Report,
    canary_lines,
    headline,
    host_lists,
    room_of,
    short_lines,
)
from aide_compare.hosts.report_values import SharedChange
from aide_compare.lines.change import Fields
from aide_compare.lines.reader import embedded
from aide_compare.show.digest import digest
from aide_compare.show.page import BESIDE, MAX_PAGE, both_values, head_of
from aide_compare.show.page import size_beside, whole_page

MAX_LIST = 1500000  # Of each list of hosts.
MIN_ROW = 400  # So many bytes most rows have at least.


def listed(lines: Sequence[str]) -> list[str]:
    """The lines of a list of hosts for which there is room."""
    room = MAX_LIST
    for number, line in enumerate(lines):
        room -= len(embedded(guarded(line)))
        if room < 0:
            return [*map(guarded, lines[:number]), f"and {len(lines) - number:,} more"]
    return list(map(guarded, lines))


def heading_of(report: Report, left_out: int, high: int) -> Fields:
    """What stands above the changes: also how many of these are left out."""
    summary = report.summary
    remarks = canary_lines(summary)
    if left_out:
        command = shlex.join(report.command)
        what = f"{left_out:,} more changes, {high:,} of them high"
        remarks.append(f"This page has no room for {what}. This command prints all: {command}")
    outcome = "No changes are listed"
    if summary.changes:
        outcome = f"{summary.changes:,} different changes, {ORDER}"
    lists = host_lists(report.hosts)
    return {
        "title": headline(summary),
        "facts": [],
        "databases": [],
        "counts": [
            ["hosts", summary.counts.hosts],
            ["differ", summary.counts.differ],
            ["not compared", summary.counts.not_compared],
        ],
        "remarks": remarks,
        "lists": [[f"{name}: {len(lists[name]):,}", listed(lists[name])] for name in lists],
        "outcome": outcome,
    }


def shared_row(shared: SharedChange, hosts: int) -> bytes:
    """The row of a change, with its hosts."""
    marks = {
        "standing": "open",
        "severity": shared.severity,
        "note": guarded(f"on {shared.hosts} of {hosts} hosts: {shared.names_text()}"),
        "old_various": shared.various,
        "per_host": shared.per_host,
    }
    known = {name: mark for name, mark in marks.items() if mark}
    head = head_of(shared.change, embedded(known).replace(b"{", b",", 1))
    return b"[%b,%b]" % (head, both_values(shared.change))


def hosts_page(report: Report, limit: int = 0) -> Iterator[bytes]:
    """Yields the page, of at most so many bytes. The most severe changes have room first."""
    total = report.summary.changes
    title = headline(report.summary)
    text = "\n".join(short_lines(report))
    room = (limit or MAX_PAGE) - size_beside(title, text, lambda: heading_of(report, total, total))
    left_out = Counter(dict(report.fleet.table.ask(LEVELS)))

    def rows() -> Iterator[bytes]:
        size = 0
        for part in digest(
            report.fleet.table, room_of(report, max(room // MIN_ROW, 1)), lambda *_: ""
        ):
            for shared in map(report.shared, part.places):
                data = shared_row(shared, report.summary.counts.hosts)
                size += len(data) + BESIDE
                if size > room:
                    return
                left_out[part.level] -= 1
                yield data

    def heading() -> Fields:
        return heading_of(report, sum(left_out.values()), left_out[0])

    return whole_page(title, text, rows(), heading)
