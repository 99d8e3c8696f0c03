"""What a session answers: standard output, standard error and a status."""
from __future__ import annotations

from collections.abc import Callable
from typing import NamedTuple, Union

from tests.lib.answer import Answer

from . import configuration, patterns
from .configuration import Settings
from .database import Database, database_of, first_fault
from .report import report_of
from .texts import printed

CONFIGURATION_LIMIT = 4194304
USAGE, BAD_CONFIGURATION, BAD_DEVICE, NO_MEMORY, BAD_DATABASE = 15, 17, 18, 22, 24
USAGE_LINE = b"aide: usage: aide (-E | -D) -c FILE [-B TEXT] [-A TEXT]"
CONFIGURATION_WORDS = {
    "BadDirective": "unknown directive",
    "LeftOut": "left out of this profile",
    "StrayElse": "@@else without a block",
    "StrayEndif": "@@endif without a block",
    "MissingEndif": "missing @@endif",
    "TooDeep": "blocks nested too deep",
    "BadName": "bad name",
    "UnknownAttribute": "unknown attribute",
    "BadExpression": "bad expression",
    "BadValue": "bad value",
    "BadUrl": "bad database URL",
    "LineTooLong": "line too long",
    "ValueTooLong": "value too long",
    "TooMany": "too many definitions",
    "BadLine": "line not understood",
    "NoOldDatabase": "no old database",
    "NoNewDatabase": "no new database",
}
DATABASE_WORDS = {
    "LineTooLong": "line too long",
    "NoBegin": "no @@begin_db",
    "BadDirective": "unexpected directive",
    "BadSpec": "bad @@db_spec",
    "NoSpec": "no @@db_spec",
    "FieldCount": "wrong number of fields",
    "BadName": "bad name",
    "OutOfOrder": "entry out of path order",
    "BadNumber": "bad number in column",
    "BadTime": "bad time in column",
    "BadDigest": "bad digest in column",
    "NoEnd": "no @@end_db",
    "TooManyBytes": "too many bytes",
}
LIST_WORDS = {
    "NoPath": "a path begins with /",
    "DoubleStar": "** is a component of its own",
    "OpenEscape": "a backslash is the last byte of a component",
    "OpenClass": "a class has no end",
    "BadRange": "a range ends before it begins",
    "BadReason": "no reason for programs",
    "TooMany": "too many rules",
}
LETTERS = {"E": "compare", "D": "config-check", "c": "config", "B": "before", "A": "after"}
OPTIONS = list(LETTERS.values())
FLAGS = ["compare", "config-check"]
TRUSTED = ["trusted-old", "trusted-new"]
WITHOUT = "without"


class Beginning(bytes):
    """In place of an output: whatever is a beginning of these bytes."""

    def __eq__(self, output: object) -> bool:
        return isinstance(output, bytes) and self.startswith(output)

    def __ne__(self, output: object) -> bool:
        return not self == output

    def __repr__(self) -> str:
        return f"a beginning of {super().__repr__()}"


class Unread:
    """In place of the bytes of a file that opens and cannot be read, as a folder."""


# The bytes of a file, None for a file that is not there; and what gives them by a path.
File = Union[bytes, Unread, None]
Files = Callable[[bytes], File]
# The values of the options of a command line by their names, an empty one if there is none.
Job = dict[str, bytes]
# What gives the output of a comparison and its status.
Written = Callable[[Database, Database, list[bytes], Settings], tuple[bytes, int]]


def option_of(word: bytes, known: list[str]) -> tuple[list[str], bytes | None]:
    """The options that a word names, and the value that it brings along or None; no options where
    it is out of form."""
    if word.startswith(b"--"):
        long_name, sign, value = word[2:].partition(b"=")
        name = long_name.decode("latin-1")
        return ([name], value if sign else None) if name in known else ([], None)
    names = []
    for index in range(1, len(word)):
        name = LETTERS.get(chr(word[index]), "")
        if name not in known:
            return [], None
        names.append(name)
        if name not in FLAGS:
            value = word[index + 1 :]
            return names, (value[1:] if value.startswith(b"=") else value) if value else None
    return names, None


def options_of(words: list[bytes], known: list[str]) -> Job | None:
    """The known options of a command line as a map, None where it is not understood. A value may
    not begin with a hyphen."""
    given: Job = {}
    rest = list(words)
    while rest:
        word = rest.pop(0)
        if word == b"--" and not rest:
            break
        names, value = (
            option_of(word, known)
            if len(word) > 1 and word.startswith(b"-") and word != b"--"
            else ([], None)
        )
        if not names or names[-1] in FLAGS and value is not None:
            return None
        if names[-1] not in FLAGS and value is None:
            if not rest or len(rest[0]) > 1 and rest[0].startswith(b"-"):
                return None
            value = rest.pop(0)
        for name in names:
            if name in given:
                return None
            given[name] = value or b""
    return given


def job_of(words: list[bytes]) -> Job | None:
    """The options of a command line of `aide`, None where it is not understood."""
    job = options_of(words, OPTIONS)
    if job is None or "config" not in job:
        return None
    return job if ("compare" in job) != ("config-check" in job) else None


def job_of_lines(words: list[bytes]) -> Job | None:
    """The options of a command line of `aide_lines`: a comparison may name both databases of a
    trusted pair, and give the text of a list. A name that is empty is none."""
    job = options_of(words, OPTIONS + TRUSTED + [WITHOUT])
    if job is None or "compare" not in job:
        return job_of(words)
    named = [name for name in TRUSTED if job.get(name)]
    if "config-check" in job or "config" not in job or len(named) == 1:
        return None
    return {name: text for name, text in job.items() if name not in TRUSTED or name in named}


def refused(line: bytes, status: int) -> Answer:
    return Answer(b"", b"aide: " + line + b"\n", status)


def refusal_of(name: bytes, path: bytes, text: File) -> Answer | None:
    """The answer to the first fault of a database by its name, None for a sound one."""
    if text is None:
        return refused(b"cannot open the %s database %s" % (name, printed(path)), BAD_DEVICE)
    if isinstance(text, Unread):
        return refused(b"%s database:1: read failed" % name, BAD_DEVICE)
    fault = first_fault(text)
    if fault is None:
        return None
    words = DATABASE_WORDS[fault.kind] + (" %d" % fault.column if fault.column else "")
    return refused(b"%s database:%d: %s" % (name, fault.line, words.encode()), BAD_DATABASE)


def list_of(text: bytes) -> tuple[list[patterns.Rule], bytes] | Answer:
    """The rules of a list and its text, or the answer to its first fault."""
    try:
        return patterns.rules_of(text), text
    except patterns.Fault as fault:
        line, kind = str(fault).split()
        return refused(("list:%s: %s" % (line, LIST_WORDS[kind])).encode(), BAD_CONFIGURATION)


def compare(settings: Settings, files: Files, form: Form) -> Answer:
    """The answer of a comparison under good settings: a form gives what goes out, and the status.

    The first fault counts, of the old database, then of the new one, and then of a trusted pair if
    one is named.
    """
    paths = [(b"old", settings["database_in"]), (b"new", settings["database_new"])]
    paths += zip((b"trusted old", b"trusted new"), settings["trusted"])
    texts = [files(path) for _, path in paths]
    refusals = [refusal_of(name, path, text) for (name, path), text in zip(paths, texts)]
    first = next(filter(None, refusals), None)
    if first is not None:
        return first._replace(output=form.begun(texts, settings))
    sound = [text for text in texts if isinstance(text, bytes)]
    old, new = (database_of(text) for text in sound[:2])
    output, status = form.written(old, new, sound, settings)
    errors = b"".join(
        b"aide: %s database: column %d skipped\n" % (side, column)
        for side, database in ((b"old", old), (b"new", new))
        for column in database.skipped
    )
    return Answer(output, errors, status)


class Form(NamedTuple):
    """What a program writes: `written` gives the output of a comparison and its status, `begun`
    what may have gone out before a fault of the given texts, and `checked` the output of a check of
    the configuration. `read` reads the words, and `usage` is the line about others."""

    usage: bytes
    written: Written
    begun: Callable[[list[File], Settings], bytes]
    checked: Callable[[Settings], bytes]
    read: Callable[[list[bytes]], Job | None]


def writes_nothing(*_: object) -> bytes:
    return b""


REPORT = Form(USAGE_LINE, report_of, writes_nothing, writes_nothing, job_of)


def answer_of(words: list[bytes], files: Files, form: Form = REPORT) -> Answer:
    """The answer to the words of a command line, the program's name aside.

    `files` gives the bytes of a path, None for a file that is not there, and `Unread` for one that
    cannot be read.
    """
    try:
        for word in words:
            word.decode("utf-8")
    except UnicodeDecodeError:
        return refused(b"out of memory", NO_MEMORY)
    job = form.read(words)
    if job is None:
        return Answer(b"", form.usage + b"\n", USAGE)
    left_out = list_of(job.get(WITHOUT, b""))
    if isinstance(left_out, Answer):
        return left_out
    text = files(job["config"])
    if text is None or isinstance(text, Unread):
        return refused(b"cannot read the configuration " + printed(job["config"]), BAD_DEVICE)
    if len(text) > CONFIGURATION_LIMIT:
        return refused(
            b"the configuration is longer than %d bytes" % CONFIGURATION_LIMIT, BAD_CONFIGURATION
        )
    settings = configuration.read(
        job.get("before", b""), text, job.get("after", b""), "compare" in job
    )
    if isinstance(settings, configuration.Fault):
        words_of_fault = CONFIGURATION_WORDS[settings.kind]
        return refused(
            ("%s:%d: %s" % (settings.text, settings.line, words_of_fault)).encode(),
            BAD_CONFIGURATION,
        )
    if "compare" not in job:
        return Answer(form.checked(settings), b"", 0)
    trusted = [job[name] for name in TRUSTED if name in job]
    return compare({**settings, "trusted": trusted, "list": left_out}, files, form)
