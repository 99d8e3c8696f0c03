"""The command line of a command, made of rows of the table of options, and the administrator's
defaults.

An administrator writes down once in /etc/aide-compare what is wanted each time: `defaults` has
options, as on the command line and one a line, and `without` has paths that are left out. None of
these says whose rights a command has.
"""
from __future__ import annotations

import argparse
import os
import re
from collections.abc import Iterable, Mapping, Sequence
from contextlib import suppress
from functools import partial
from typing import Any, NamedTuple, NoReturn, TypeVar

from aide_compare.base.ending import Done, Fault, OSErrorAsFault, Status, tell, usage_fault
from aide_compare.base.escapes import shown
from aide_compare.base.files import lines_of, trusted_text
from aide_compare.base.options import (
    CHECK_DEFAULTS,
    COMPARISON_DEFAULTS,
    MAIL_DEFAULTS,
    NO_DEFAULTS,
    Request,
    Operand,
    Option,
)
from aide_compare.base.words import nearest

# What a command line gives, by the fields of a request, or the lines of the defaults, by the names
# that the options have once they are parsed.
OptionValues = dict[str, Any]
AnyRequest = TypeVar("AnyRequest", bound=Request)

OPERAND = "\0"  # Before a word that follows --. No argument has this byte.
DIRECTORY = "/etc/aide-compare"
DEFAULTS = "the defaults"
DEFAULTS_LINE = r"(--[a-z-]+)(?:(?:=|[ \t]+)([^\0]*))?"
MAY_BE_DEFAULTS = {
    option.name: option for option in (*COMPARISON_DEFAULTS, *MAIL_DEFAULTS, *CHECK_DEFAULTS)
}

COLUMNS = 80  # Of the help. argparse itself asks the terminal by shutil, which takes 10 ms to load.


class Formatter(argparse.HelpFormatter):
    """Fills each paragraph of the help. No word is broken."""

    def __init__(self, prog: str) -> None:
        super().__init__(prog, max_help_position=26, width=COLUMNS)

    def _fill_text(self, text: str, width: int, indent: str) -> str:
        paragraphs = [self._split_lines(part, width) for part in text.split("\n\n")]
        return "\n\n".join("\n".join(indent + line for line in lines) for lines in paragraphs)

    def _split_lines(self, text: str, width: int) -> list[str]:
        import textwrap

        words = " ".join(text.split())
        return textwrap.wrap(words, width, break_long_words=False, break_on_hyphens=False)


class Once(argparse.Action):
    """An option that may be given once."""

    def __call__(
        self,
        parser: argparse.ArgumentParser,
        namespace: argparse.Namespace,
        values: object,
        option_string: str | None = None,
    ) -> None:
        if hasattr(namespace, self.dest):
            names = "/".join(self.option_strings)
            parser.error(f"{names} is given twice")
        setattr(namespace, self.dest, values)


def words_of_option(option: Option, name: str) -> dict[str, Any]:
    """What argparse is told of an option whose value is that of a field of this name."""
    words: dict[str, Any] = {"help": option.help, "dest": name}
    if not option.has_value:
        return {**words, "action": "store_true"}
    if option.metavar:
        words["metavar"] = option.metavar
    if option.choices:
        words["choices"] = option.choices
    else:
        words["type"] = option.kind
    if option.is_repeated:
        words["action"] = "append"
    if option.number_of_values > 1:
        words.update(nargs=option.number_of_values, metavar=tuple(option.metavar.split()))
    if option.is_single:
        words["action"] = Once
    return words


def words_of_operand(operand: Operand) -> dict[str, Any]:
    """What argparse is told of an operand."""
    return {
        "metavar": operand.metavar,
        "help": operand.help,
        "type": partial(_operand, operand),
        "nargs": operand.nargs,
        "default": None,
    }


def end_of_options(words: Sequence[str]) -> int:
    """Where they end on a command line: after -- there are operands only."""
    if "--" in words:
        return words.index("--")
    return len(words)


class Help(NamedTuple):
    """What --help prints of a command beside its options."""

    name: str
    description: str
    epilog: str = ""
    usage: str = "%(prog)s [OPTIONS]"


class Parser(argparse.ArgumentParser):
    """The parser of what a command is asked for. Faults have the status 15."""

    def __init__(self, request_class: type[Request], help: Help) -> None:
        super().__init__(
            prog=help.name,
            description=help.description,
            usage=help.usage,
            epilog=help.epilog,
            allow_abbrev=False,
            argument_default=argparse.SUPPRESS,
            formatter_class=Formatter,
        )
        self.names: list[str] = []  # Of all options.
        self.add_rows(request_class.rows())

    def add_rows(self, rows: Mapping[str, Option | Operand]) -> None:
        """Adds options and operands, whose values are those of these fields."""
        for field, row in rows.items():
            if isinstance(row, Operand):
                self.add_argument(field, **words_of_operand(row))
                continue
            names = [each for each in (row.letter, row.name) if each]
            self.names += names
            self.add_argument(*names, **words_of_option(row, field))

    def parse(self, arguments: Sequence[str]) -> OptionValues:
        """What the arguments give; options and operands may stand in any order, and after -- there
        are operands only."""
        cut = end_of_options(arguments)
        operands = [OPERAND + word for word in arguments[cut + 1 :]]
        return vars(self.parse_intermixed_args([*arguments[:cut], *operands]))

    def _print_message(self, message: str, file: object = None) -> None:
        tell(message.rstrip())

    def exit(self, status: int = 0, message: str | None = None) -> NoReturn:
        raise Done  # After --help; faults are in `error`.

    def error(self, message: str) -> NoReturn:
        text = message.replace(OPERAND, "")
        unknown = re.match("unrecognized arguments: (--[^ =]+)", text)
        if unknown and (near := nearest(unknown[1], self.names)):
            text += f"; did you mean {near}"
        raise usage_fault(text)


def read(
    request_class: type[AnyRequest],
    words: Sequence[str],
    help: Help,
    defaults: OptionValues | None = None,
) -> AnyRequest:
    """What the words of a command line ask for, and the defaults where they say nothing."""
    return filled(request_class, Parser(request_class, help).parse(words), defaults or {})


def filled(
    request_class: type[AnyRequest], command_line: OptionValues, defaults: OptionValues
) -> AnyRequest:
    """What a command line asks for that gives these values, and the defaults where it gives none. A
    list has those of both."""
    values: OptionValues = {}
    for field, row in request_class.rows().items():
        if isinstance(row, Operand):
            values[field] = command_line[field] or defaults.get(field, row.default)
        elif row.is_repeated:
            values[field] = [*defaults.get(row.attribute, ()), *command_line.get(field, ())]
        else:
            values[field] = command_line.get(field, defaults.get(row.attribute, row.usual))
    return request_class(values)


def _operand(operand: Operand, text: str) -> object:
    return operand.kind(text.removeprefix(OPERAND))


def administrators_file(name: str) -> str | None:
    """The path of a file in the administrator's directory; None if there is no such file."""
    path = os.path.join(DIRECTORY, name)
    with OSErrorAsFault(f"cannot look for {shown(path)}"):
        with suppress(FileNotFoundError, NotADirectoryError):
            os.lstat(path)
            return path
    return None


class DefaultLine(NamedTuple):
    """A line of the defaults: its option, None if it has none, with its value or its fault."""

    option: Option | None
    value: Any
    fault: Fault | None


class Defaults(NamedTuple):
    """The administrator's defaults, as a command has read them once."""

    are_wanted: bool = False
    file: tuple[str, bytes] | None = None  # Its path and its text; None if there is none.
    lines: Sequence[DefaultLine] = ()

    def values(self, options: Iterable[Option], passes_faults: bool = False) -> OptionValues:
        """What the lines give these options. Lines with a fault can be passed over; otherwise one
        of these options, or of none, is a Fault."""
        values: OptionValues = {}
        wanted = {option.name for option in options}
        for option, value, fault in self.lines:
            if option and option.name not in wanted:
                continue
            if fault and not passes_faults:
                raise fault
            if option and not fault:
                if option.is_repeated:
                    value = [*values.get(option.attribute, ()), *value]
                values[option.attribute] = value
        return values


def read_defaults(words: Sequence[str]) -> Defaults:
    """The defaults; none if the words of the command line need none."""
    before = set(words[: end_of_options(words)])
    if before & {NO_DEFAULTS.name, "--help", "-h"}:
        return Defaults()
    path = administrators_file("defaults")
    if path is None:
        return Defaults(True)
    file = (path, trusted_text(path, DEFAULTS))
    parser = Parser(Request, Help("", ""))
    parser.add_rows({option.attribute: option for option in MAY_BE_DEFAULTS.values()})
    return Defaults(True, file, [line_of(parser, *line) for line in lines_of(*file, DEFAULTS)])


def line_of(parser: Parser, line: bytes, place: str) -> DefaultLine:
    option = None
    try:
        option, words = option_in(line, place)
        (value,) = vars(parser.parse_args(words)).values()
        return DefaultLine(option, value, None)
    except Fault as fault:
        text = fault.text
        if option:
            text = f"{place}: {text}"
        return DefaultLine(option, None, Fault(fault.status, text))


def option_in(line: bytes, place: str) -> tuple[Option, list[str]]:
    """The option of a line of the defaults, and its words as they stand on a command line."""
    match = re.fullmatch(DEFAULTS_LINE, os.fsdecode(line))
    if match is None or match.group(1) not in MAY_BE_DEFAULTS:
        text = shown(line, 100)
        raise Fault(Status.USAGE, f"{place}: this option cannot be a default: {text}")
    name, value = match.groups("")
    option = MAY_BE_DEFAULTS[name]
    if not value:
        return option, [name]
    if option.number_of_values > 1:
        return option, [name, *value.split()]
    return option, [f"{name}={value}"]
