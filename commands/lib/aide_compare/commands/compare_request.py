"""What a comparison is asked for: by a command line, and by the administrator's defaults."""
from __future__ import annotations

import os
from collections.abc import Sequence
from typing import TYPE_CHECKING

from aide_compare.base.ending import Fault, Status, usage_fault
from aide_compare.base.escapes import shown
from aide_compare.base.options import (
    AFTER,
    CONFIG,
    EXCLUDE,
    EXCLUDE_FROM,
    MAX_AGE,
    MAX_SIZE,
    NO_DEFAULTS,
    QUIET,
    STATE,
    TRUSTED,
    USER,
    VERBOSE,
    Request,
    Operand,
    Option,
    field,
)
from aide_compare.base.parser import DIRECTORY, AnyRequest, Defaults, OptionValues, filled
from aide_compare.commands.defaults import ADVICE, comparison_defaults, exclusions_of
from aide_compare.compare.comparison import ComparisonInput
from aide_compare.compare.configuration import NONE
from aide_compare.compare.outputs import STDOUT, descriptor_of
from aide_compare.show.outputs import OUTPUTS, OutputRow

if TYPE_CHECKING:
    from aide_compare.base.paths import Pattern

EPILOG = """\
Times are as in 90s, 15m, 26h or 3d; a plain number is seconds. Sizes are in bytes, or as in
500k, 20M or 1G. Root becomes the user in whose directories the baseline and the outputs are, unless
--user names another one.

Status: 0 nothing to read; 1 added, 2 removed, 4 changed, and sums of these, by the changes that are
not silent; above 7 a failure."""


class CompareRequest(Request):
    """What the options of a comparison ask for, whatever becomes of it."""

    databases: Sequence[str] = field(
        Operand(
            "OLD NEW",
            "the databases, - for standard input (those of the defaults)",
            "*",
            (),
        )
    )
    configuration: str | None = field(CONFIG)
    after: str = field(AFTER, default="")
    state: str | None = field(
        STATE, help="write the status, the time, the counts and both SHA-256 to FILE"
    )
    max_size: int = field(MAX_SIZE)
    max_age: int = field(MAX_AGE)
    exclude_from: Sequence[str] = field(EXCLUDE_FROM)
    exclude: Sequence[str] = field(EXCLUDE)
    trusted: Sequence[str] = field(TRUSTED, default=())
    user: str | None = field(USER)
    no_defaults: bool = field(NO_DEFAULTS)

    @classmethod
    def rows(cls) -> dict[str, Option | Operand]:
        return {**super().rows(), **{row.option.attribute: row.option for row in OUTPUTS}}

    @property
    def outputs(self) -> Sequence[tuple[OutputRow, str]]:
        """Further outputs, each with its place."""
        places = [(row, vars(self).get(row.option.attribute)) for row in OUTPUTS]
        return [(row, path) for row, path in places if path]

    @property
    def paths(self) -> list[str]:
        """Those of all outputs, the state file among them."""
        paths = [path for _, path in self.outputs]
        if self.state:
            paths.append(self.state)
        return paths

    @property
    def places(self) -> list[int | str]:
        """The places of all outputs: descriptors, and files by one name each."""
        return [descriptor_of(path) or os.path.realpath(path) for path in self.paths]


class PrintRequest(CompareRequest):
    """The same of a command that prints the comparison."""

    is_quiet: bool = field(QUIET, help="print no differences, and few notes")
    is_verbose: bool = field(VERBOSE)
    wants_report: bool = False
    pattern: Pattern | None = None  # Of the paths whose changes are printed, if not all are.

    @property
    def places(self) -> list[int | str]:
        printed = filter(None, (self.wants_report, self.pattern))
        return [*super().places, *(STDOUT for _ in printed)]


class OutputRequest(PrintRequest):
    """The same of a command that prints one of the outputs."""

    output: OutputRow

    @classmethod
    def rows(cls) -> dict[str, Option | Operand]:
        rows = super().rows()
        del rows[cls.output.option.attribute]
        return rows

    @property
    def outputs(self) -> Sequence[tuple[OutputRow, str]]:
        return [*super().outputs, (self.output, "-")]


def refuse_names(request: CompareRequest) -> None:
    """Refuses one database alone, and more than two."""
    databases = request.databases
    text = ""
    if len(databases) == 1:
        text = f"name both databases, OLD and NEW, or none, and not only {shown(databases[0], 200)}"
        files = [path for path in request.paths if descriptor_of(path) is None]
        if files:
            text += f"; {shown(files[0], 200)} is where an output goes (- prints it)"
    if len(databases) > 2:
        text = f"more than two databases: {shown(databases[-1], 200)}"
        if request.exclude:
            text += "; each pattern needs an --exclude of its own"
    if text:
        raise usage_fault(text)
    if request.configuration and not databases:
        raise usage_fault("--config names no databases: name OLD and NEW")


def with_defaults(
    request_class: type[AnyRequest], command_line: OptionValues, defaults: Defaults
) -> AnyRequest:
    """What a command line asks for that gives these values, and the administrator's defaults where
    it says nothing."""
    return filled(
        request_class, command_line, comparison_defaults(defaults, command_line["databases"])
    )


def work_request(request: CompareRequest, defaults: Defaults) -> ComparisonInput:
    """What is compared, and how."""
    if not request.databases:
        raise Fault(Status.USAGE, "no databases are named", ADVICE)
    if [*request.databases, *request.trusted].count("-") > 1:
        raise Fault(Status.USAGE, "standard input can hold only one database")
    places = request.places
    for place in places:
        if places.count(place) > 1:
            name = str(place)
            if place == STDOUT:
                name = "standard output"
            raise Fault(Status.USAGE, f"two outputs have one place: {shown(name, 200)}")
    old, new = request.databases
    others = (*request.trusted, *request.exclude_from, request.configuration or old)
    usual = (f"{DIRECTORY}/defaults", f"{DIRECTORY}/without")
    read = {os.path.realpath(path) for path in (old, new, *others, *usual)}
    for path in request.paths:
        if os.path.realpath(path) in read and descriptor_of(path) is None:
            text = (
                f"an output is one of the files read, which would be replaced: {shown(path, 200)}"
            )
            raise Fault(Status.USAGE, text)
    return ComparisonInput(
        old=old,
        new=new,
        configuration=request.configuration or NONE,
        after=request.after,
        max_size=request.max_size,
        max_age=request.max_age,
        exclusions=exclusions_of(
            request.exclude_from, request.exclude, defaults, request.databases
        ),
        trusted=request.trusted,
    )
