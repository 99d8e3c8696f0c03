"""The settings of a configuration, or its first fault.

A configuration is three texts, one after another. Each line that says something is marked with what
it says. What a line says may depend only on the marks before it.
"""
from __future__ import annotations

import re
from collections.abc import Sequence
from functools import lru_cache
from typing import Any, Mapping, NamedTuple, NoReturn

from .attributes import EMPTY_NAMES, Groups, NAMES, expression_fault, meaning_of
from .texts import BLANKS, lines_of

LINE_LIMIT, VALUE_LIMIT, COUNT_LIMIT, DEPTH_LIMIT = 65536, 4096, 1024, 32
LEVELS = (
    "minimal summary database_attributes list_entries changed_attributes"
    " added_removed_attributes added_removed_entries"
).split()
BOOLS = {b"yes": True, b"true": True, b"no": False, b"false": False}
BOOL_OPTIONS = ["report_grouped", "report_summarize_changes", "report_base16", "report_quiet"]
SET_OPTIONS = [
    "report_ignore_added_attrs",
    "report_ignore_removed_attrs",
    "report_ignore_changed_attrs",
    "report_force_attrs",
]
URL_OPTIONS = {
    "database": "database_in",
    "database_in": "database_in",
    "database_new": "database_new",
}
OLDER_OPTIONS = ["ignore_list", "report_attributes", "grouped", "summarize_changes"]
WITHOUT_EFFECT = (
    "database_out database_gzip gzip_dbout database_attrs database_add_metadata log_level verbose"
    " config_version config_check_warn_unrestricted_rules root_prefix num_workers"
    " acl_no_symlink_follow warn_dead_symlinks report_append report_detailed_init"
    " report_ignore_e2fsattrs syslog_format"
).split()
OPTIONS = (
    ["report_level", "report_url", "report_format"]
    + BOOL_OPTIONS
    + SET_OPTIONS
    + list(URL_OPTIONS)
    + OLDER_OPTIONS
    + WITHOUT_EFFECT
)
DEFAULTS = {
    "report_level": "changed_attributes",
    "report_grouped": True,
    "report_summarize_changes": True,
    "report_base16": False,
    "report_quiet": False,
    "report_ignore_added_attrs": frozenset(),
    "report_ignore_removed_attrs": frozenset(),
    "report_ignore_changed_attrs": frozenset(),
    "report_force_attrs": frozenset(),
}

WORD = re.compile(rb"[A-Za-z0-9_]{1,64}")
REFERENCE = re.compile(rb"@@\{([^}]*)\}", re.DOTALL)


class Mark(NamedTuple):
    """A line that says something, and whether it is used."""

    # O, D or C where it opens, divides or closes a block.
    block: str
    # The part that an opening line chooses.
    first: bool | None
    # ('define', name, value), ('undef', name), ('option', name, value) or ('group', name, set).
    says: tuple[Any, ...] | None
    used: bool = True


class Fault(NamedTuple):
    text: str
    line: int
    kind: str


# An opening line, and whether a line is in its second part.
Around = tuple[Mark, bool]
# The values of the options by their names.
Settings = Mapping[str, Any]


class Refused(Exception):
    """The kind of the fault of a line."""


@lru_cache(maxsize=None)
def is_balanced(blocks: str) -> bool:
    """Whether lines of blocks (O, D, C) are balanced: taking out blocks that hold none, again and
    again, leaves nothing."""
    shorter = re.sub("OD?C", "", blocks)
    return shorter == "" if shorter == blocks else is_balanced(shorter)


def enclosing(marks: list[Mark]) -> list[Around]:
    """The opening lines around the line after these marks of its text, each with whether it stands
    in its second part."""
    marks = [mark for mark in marks if mark.block]
    blocks = "".join(mark.block for mark in marks)
    around = []
    for index, mark in enumerate(marks):
        behind = range(index + 1, len(marks))
        if mark.block == "O" and not any(
            blocks[end] == "C" and is_balanced(blocks[index : end + 1]) for end in behind
        ):
            divided = any(
                blocks[middle] == "D" and is_balanced(blocks[index + 1 : middle])
                for middle in behind
            )
            around.append((mark, divided))
    return around


def variables_before(marks: list[Mark]) -> dict[bytes, bytes]:
    """The variables that are defined after these marks: the last line that names one defines it."""
    said = [mark.says for mark in marks if mark.used and mark.says]
    last = {says[1]: says for says in said if says[0] in ("define", "undef")}
    return {name: says[2] for name, says in last.items() if says[0] == "define"}


def groups_before(marks: list[Mark]) -> Groups:
    return {mark.says[1]: mark.says[2] for mark in marks if mark.says and mark.says[0] == "group"}


def expanded(text: bytes, marks: list[Mark]) -> bytes:
    """A text with each reference to a variable replaced by its value, or by nothing."""
    if b"@@{" not in text:
        return text
    values = variables_before(marks)
    return REFERENCE.sub(lambda found: values.get(found.group(1), b""), text)


def word_and_rest(line: bytes) -> tuple[bytes, bytes]:
    """The word of a directive and what follows it, without the blanks around it."""
    word = re.split(rb"[ \t]", line[2:], maxsplit=1)[0]
    return word, line[2 + len(word) :].strip(BLANKS)


def condition_of(word: bytes, rest: bytes) -> tuple[bytes, bool]:
    """The name that an opening line asks for, and whether its first part wants it defined."""
    if word in (b"ifdef", b"ifndef"):
        return rest, word == b"ifdef"
    found = re.match(rb"(not[ \t]+)?defined(?![^ \t])(.*)\Z", rest, re.DOTALL)
    if not found:
        raise Refused("BadDirective")
    return found.group(2).strip(BLANKS), found.group(1) is None


def judge_word(word: bytes) -> NoReturn:
    """Refuses the words that are left out, and those that nobody knows."""
    if word in (b"include", b"x_include", b"ifhost", b"ifnhost"):
        raise Refused("LeftOut")
    raise Refused("BadDirective")


def judge_name(name: bytes) -> None:
    if not WORD.fullmatch(name):
        raise Refused("BadName")


def open_block(
    word: bytes, rest: bytes, used: bool, around: list[Around], marks: list[Mark]
) -> Mark:
    name, wanted = condition_of(word, rest) if used else (b"", True)
    if len(around) + 1 > DEPTH_LIMIT:
        raise Refused("TooDeep")
    if not used:
        return Mark("O", None, None, used)
    judge_name(name)
    return Mark("O", (name in variables_before(marks)) == wanted, None)


def define(rest: bytes, marks: list[Mark]) -> Mark:
    name = re.split(rb"[ \t]", rest, maxsplit=1)[0]
    judge_name(name)
    value = expanded(rest[len(name) :].strip(BLANKS), marks)
    if len(value) > VALUE_LIMIT:
        raise Refused("ValueTooLong")
    variables = variables_before(marks)
    if name not in variables and len(variables) >= COUNT_LIMIT:
        raise Refused("TooMany")
    return Mark("", None, ("define", name, value))


def read_directive(line: bytes, used: bool, around: list[Around], marks: list[Mark]) -> Mark | None:
    """What a line that begins with @@ says; of an unused one the blocks alone."""
    word, rest = word_and_rest(line)
    if word in (b"ifdef", b"ifndef", b"if"):
        return open_block(word, rest, used, around, marks)
    if word == b"else":
        if not around or around[-1][1]:
            raise Refused("StrayElse")
        return Mark("D", None, None, used)
    if word == b"endif":
        if not around:
            raise Refused("StrayEndif")
        return Mark("C", None, None, used)
    if not used:
        return judge_word(word) if word.startswith(b"if") else None
    if word == b"define":
        return define(rest, marks)
    if word == b"undef":
        judge_name(rest)
        return Mark("", None, ("undef", rest))
    return judge_word(word)


def path_of_url(url: bytes) -> bytes:
    if url == b"stdin" or url.startswith((b"fd:", b"http:", b"https:", b"ftp:")):
        raise Refused("LeftOut")
    path = url[5:]
    if path.startswith(b"///"):
        path = path[2:]
    elif path.startswith(b"//"):
        raise Refused("BadUrl")
    if not url.startswith(b"file:") or not path.startswith(b"/"):
        raise Refused("BadUrl")
    try:
        path.decode("utf-8")
    except UnicodeDecodeError:
        raise Refused("BadUrl") from None
    if len(path) > VALUE_LIMIT:
        raise Refused("ValueTooLong")
    return path


def set_of(text: bytes, marks: list[Mark]) -> frozenset[str]:
    groups = groups_before(marks)
    fault = expression_fault(text, groups)
    if fault:
        raise Refused(fault)
    return meaning_of(text, groups)


def read_option(name: str, value: bytes, marks: list[Mark]) -> Mark:
    if value == b"":
        raise Refused("BadValue")
    if name in OLDER_OPTIONS or (name, value) == ("report_format", b"json"):
        raise Refused("LeftOut")
    if name in URL_OPTIONS:
        return Mark("", None, ("option", URL_OPTIONS[name], path_of_url(value)))
    if name in SET_OPTIONS:
        return Mark("", None, ("option", name, set_of(value, marks)))
    text = value.decode("latin-1")
    if (
        name in BOOL_OPTIONS
        and value not in BOOLS
        or name == "report_level"
        and text not in LEVELS
        or name == "report_format"
        and text != "plain"
    ):
        raise Refused("BadValue")
    return Mark("", None, ("option", name, BOOLS[value] if name in BOOL_OPTIONS else text))


def read_group(name: bytes, value: bytes, marks: list[Mark]) -> Mark:
    text = name.decode("latin-1")
    if not (WORD.fullmatch(name) or name == b">") or text in NAMES or text in EMPTY_NAMES:
        raise Refused("BadName")
    attributes = set_of(value, marks)
    groups = groups_before(marks)
    if text not in groups and len(groups) >= COUNT_LIMIT:
        raise Refused("TooMany")
    return Mark("", None, ("group", text, attributes))


def read_statement(line: bytes, marks: list[Mark]) -> Mark | None:
    """What a used line that is no directive says."""
    line = expanded(line, marks).strip(BLANKS)
    if not line or line.startswith(b"#"):
        return None
    if len(line) > LINE_LIMIT:
        raise Refused("LineTooLong")
    if line[:1] in (b"/", b"!", b"=", b"-"):
        return None
    if b"=" not in line:
        raise Refused("BadLine")
    name, value = (part.strip(BLANKS) for part in line.split(b"=", 1))
    if name.decode("latin-1") in OPTIONS:
        return read_option(name.decode("latin-1"), value, marks)
    return read_group(name, value, marks)


def read_line(line: bytes, around: list[Around], marks: list[Mark]) -> Mark | None:
    """What a line without the blanks around it says, or None where it says nothing."""
    used = all(mark.used and mark.first != divided for mark, divided in around)
    if used and len(line) > LINE_LIMIT:
        raise Refused("LineTooLong")
    if line.startswith(b"@@") and line[2:3] != b"{":
        return read_directive(line, used, around, marks)
    return read_statement(line, marks) if used else None


def marks_of(texts: Sequence[tuple[str, bytes]]) -> list[Mark] | Fault:
    """The marks of the lines of all texts, or the first fault."""
    marks: list[Mark] = []
    for text, content in texts:
        lines = lines_of(content)
        of_text: list[Mark] = []
        for number, line in enumerate(lines, 1):
            line = line.strip(BLANKS)
            if not line or line.startswith(b"#"):
                continue
            try:
                mark = read_line(line, enclosing(of_text), marks)
            except Refused as refused:
                return Fault(text, number, str(refused))
            if mark:
                of_text.append(mark)
                marks.append(mark)
        if enclosing(of_text):
            return Fault(text, len(lines) + 1, "MissingEndif")
    return marks


def settings_of(marks: list[Mark]) -> dict[str, Any]:
    """The last assignment of each option; of those of the report the last before the first report
    to standard output."""
    said = [mark.says[1:] for mark in marks if mark.says and mark.says[0] == "option"]
    ends = [index for index, option in enumerate(said) if option == ("report_url", "stdout")]
    before = said[: ends[0]] if ends else said
    settings: dict[str, Any] = {**DEFAULTS, "database_in": None, "database_new": None}
    settings.update((name, value) for name, value in before if name in DEFAULTS)
    settings.update(
        (name, value) for name, value in said if name in ("database_in", "database_new")
    )
    return settings


@lru_cache(maxsize=8)  # Both programs are asked over the same texts.
def read(before: bytes, file: bytes, after: bytes, compares: bool) -> dict[str, Any] | Fault:
    """The settings of a configuration, or its first fault; databases have to be named where it is
    read to compare."""
    marks = marks_of([("before", before), ("config", file), ("after", after)])
    if isinstance(marks, Fault):
        return marks
    settings = settings_of(marks)
    for name, kind in (("database_in", "NoOldDatabase"), ("database_new", "NoNewDatabase")):
        if compares and settings[name] is None:
            return Fault("after", len(lines_of(after)) + 1, kind)
    return settings
