"""What the report of many hosts has, as values: the summary, the hosts, and the changes that some
of them have. Each has an object in the report in JSON."""
from __future__ import annotations

from collections.abc import Collection, Sequence
from functools import cached_property
from typing import NamedTuple

from aide_compare.base.words import KINDS, SEVERITIES, counted, date_of
from aide_compare.compare.state import State
from aide_compare.lines.change import Change, Counts, Fields, change_of

REPORT_FORMAT = 4
# What the lines are that were kept of a host.
WHOLE = "whole"
CUT = "cut"
UNREADABLE = "unreadable"


class HostCounts(NamedTuple):
    """How many hosts there are, and how many of each kind."""

    hosts: int
    unchanged: int
    differ: int  # By changes that somebody has to read.
    silent: int  # By others alone.
    not_compared: int

    @classmethod
    def of(cls, ends: Collection[tuple[int, bool]]) -> HostCounts:
        """Counts hosts, each by its status and by whether it has silent differences alone."""
        not_compared = sum(status > 7 for status, _ in ends)
        differ = sum(1 <= status <= 7 for status, _ in ends)
        silent = sum(is_silent for _, is_silent in ends)
        unchanged = len(ends) - not_compared - differ - silent
        return cls(len(ends), unchanged, differ, silent, not_compared)

    def headline(self) -> str:
        hosts = counted(self.hosts, "host")
        return f"{hosts}: {self.differ} differ, {self.not_compared} not compared"

    def others(self) -> str:
        """How many hosts there is nothing to say of, as in "90 without differences, 9 with silent
        ones"."""
        line = f"{self.unchanged} without differences"
        if self.silent:
            line += f", {self.silent} with silent ones"
        return line


class Summary(NamedTuple):
    """How many hosts and changes there are."""

    counts: HostCounts
    cut: int  # Of the hosts that differ.
    not_listed: int
    changes: int
    canary: Sequence[str]  # What the runs have noted of their canaries.

    def fields(self) -> Fields:
        """Its object."""
        numbers = {**self.counts._asdict(), **self._asdict()}
        del numbers["counts"]
        canary = numbers.pop("canary")
        lines = 1 + self.counts.hosts + self.changes
        fields: Fields = {"record": "summary", "format": REPORT_FORMAT, **numbers, "lines": lines}
        if canary:
            fields["canary"] = canary
        return fields


class Host(NamedTuple):
    """What the store knows of a host."""

    name: str  # As it may be shown.
    status: int  # That of what is not silent.
    error: str  # Why it was not compared.
    state: State | None  # None if it never was.
    report: str = ""  # What its lines are: one of the words above; "" if they were not read.
    listed: int = 0  # How many changes these have.

    @property
    def is_silent(self) -> bool:
        """Whether it differs, but only by changes that nobody has to read."""
        return self.status == 0 and self.state is not None and self.state.status > 0

    @property
    def counts(self) -> Counts | None:
        """The counts of its standings; None if nobody has judged its changes."""
        return self.state.standings if self.state else None

    @property
    def open(self) -> int | None:
        """How many of its changes are not silent."""
        return self.counts.to_read if self.counts else None

    @property
    def high(self) -> int | None:
        """How many of these have the severity high."""
        return self.counts.of_severity(SEVERITIES[0]) if self.counts else None

    @property
    def trusted(self) -> int:
        """How many of its changes are silent since a canary has them too."""
        return self.counts.trusted if self.counts and self.status <= 7 else 0

    @property
    def differs(self) -> bool:
        """Whether it has changes that somebody has to read."""
        return 1 <= self.status <= 7

    def fields(self) -> Fields:
        """Its object."""
        fields: Fields = {"record": "host", "host": self.name, "status": self.status}
        if self.state:
            fields["time"] = date_of(self.state.time)
        if self.state is None or self.status > 7:
            fields["error"] = self.error
            return fields
        fields.update({kind: getattr(self.state, kind) for kind in KINDS})
        fields.update(new_sha256=self.state.new_sha256, open=self.open, high=self.high)
        fields["left_out"] = self.counts.left_out if self.counts else None
        if self.report:
            fields.update(report=self.report, listed=self.listed)
        return fields


class SharedChange:
    """A change that `hosts` of all have: the `names` of the first ones.

    `various` are the attributes of the old values if not all of these are the same on all of them,
    `per_host` those whose values are of each host and are not kept.
    """

    def __init__(self, fields: Fields) -> None:
        self.fields = fields
        self.hosts: int = fields["hosts"]
        self.names: Sequence[str] = fields["names"]
        self.severity: str = fields["severity"]
        self.various: Sequence[str] = fields.get("old_various", ())
        self.per_host: Sequence[str] = fields.get("per_host", ())

    @cached_property
    def change(self) -> Change:
        """The change itself, which is made only of those that are shown."""
        return change_of(self.fields)

    def names_text(self) -> str:
        """The hosts that have it, the first ones by their names."""
        names = ", ".join(self.names)
        more = self.hosts - len(self.names)
        if more:
            names += f" and {more} more"
        return names
