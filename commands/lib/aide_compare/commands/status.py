"""aide-compare status: the result of the last comparison, in the form that people or programs
read. By the name check_aide_compare it is a check for Nagios."""
from __future__ import annotations

import os
from collections.abc import Sequence

from aide_compare import VERSION
from aide_compare.base.ending import (
    DeviceFault,
    Done,
    Status,
    tell,
    usage_fault,
    why_of,
    write_blocks,
)
from aide_compare.base.escapes import guarded, shown
from aide_compare.base.files import is_missing, is_name
from aide_compare.base.replacement import replace
from aide_compare.base.rights import become_owner
from aide_compare.base.kinds import AlarmLimit
from aide_compare.base.options import (
    CHECK_DEFAULTS,
    CRITICAL,
    NO_DEFAULTS,
    QUIET,
    RESULT_AGE,
    STATE,
    WARNING,
    Request,
    Operand,
    field,
    option,
)
from aide_compare.base.parser import Help, OptionValues, read, read_defaults
from aide_compare.base.words import SEVERITIES, capitalized, minute_of
from aide_compare.compare.history import history_path, nights_of
from aide_compare.compare.state import DAILY, State, read_state
from aide_compare.show.check import Answer, Level, answer_of
from aide_compare.show.result import late_text, result_text, table_of, time_text

HELP = Help(
    name="aide-compare status",
    usage="%(prog)s [OPTIONS] [OUTPUT]",
    description="""\
Prints the result of the last comparison: for people, for the node exporter of Prometheus, as an
object of JSON, or in a line for Nagios, as check_aide_compare does.""",
    epilog="""\
In a directory in which another user can write, as Debian's user prometheus can in its own, root
writes as that user.

Status: 0 written; 15 bad arguments; 18 the state cannot be read, or the result cannot be
written. Of nagios: 0 OK, all changes are silent; 1 WARNING, some are not; 2 CRITICAL, one of these
is open and of severity high, or the changes could not be judged; 3 UNKNOWN, the last run failed, or
the state is missing, too old or from the future. A LIMIT replaces the rule for 1 or 2: a number of
changes that are not silent, or the least severity of one, high, medium or low.""",
)
MAX_LINE = 8000
HISTORY_NIGHTS = 30
STDOUT = "-"
FORMATS = ("text", "json", "prometheus", "nagios")
PREFIX = "aide_compare_"
# What each metric means, for Prometheus.
ENTRIES = {
    "status": "Sum of 1 added, 2 removed and 4 changed, of what is not silent; above 7 a failure.",
    "added_entries": "Entries that are only in the new database.",
    "removed_entries": "Entries that are only in the old database.",
    "changed_entries": "Entries that both databases have and that differ.",
    "end_time_seconds": "The time of the last comparison or failure, in seconds since 1970.",
}
CHANGES = {
    "same": "Changes of times, inode, blocks, the size of a directory and digests that one side"
    " lacks, which are silent.",
    "trusted": "Changes as between the trusted databases, which are silent.",
    "left_out": "Changes that a line of the list leaves out, which are silent.",
    "recorded": "Changes as a package's records on the host have them.",
    "open": "All other changes.",
    **{word: f"Changes of {word} severity that are open or recorded." for word in SEVERITIES},
}


class StatusRequest(Request):
    """What the options ask for."""

    is_quiet: bool = field(
        QUIET, help="of text: print nothing if a recent comparison found only silent changes"
    )
    format: str = option("--format", "the form (text)", choices=FORMATS, default="text")
    state: str = field(
        STATE, default=DAILY, help=f"the state file that aide-compare wrote ({DAILY})"
    )
    max_age: int = field(RESULT_AGE)
    warning: AlarmLimit | None = field(WARNING)
    critical: AlarmLimit | None = field(CRITICAL)
    no_defaults: bool = field(NO_DEFAULTS)
    has_history: bool = option("--history", f"of text: a table of the last {HISTORY_NIGHTS} nights")
    output: str = field(
        Operand(
            "OUTPUT",
            "of prometheus: the file that is replaced; its name should end with .prom; "
            "standard output without it, and for -",
            "?",
            STDOUT,
        )
    )


def database_line(side: str, name: str, written: int | None) -> str:
    if written is None:
        return f"{side} database: {name}"
    return f"{side} database: {name}, written {minute_of(written)}"


def leads_to_file(name: str) -> bool:
    """Whether the name of a database means a file here too. A relative name may be one of another
    directory."""
    return is_name(name) and (os.path.isabs(name) or os.path.lexists(name))


def command_lines(state: State) -> list[str]:
    """The commands for what differs, if the names of the databases are of use in them."""
    if not state.status or not (leads_to_file(state.old) and leads_to_file(state.new)):
        return []
    import shlex

    old = shlex.quote(os.path.abspath(state.old))
    new = shlex.quote(os.path.abspath(state.new))
    return [
        "",
        f"What differs:   aide-compare {old} {new}",
        f"If it is right: aide-compare accept {new} {old}",
    ]


def paragraph(state: State, max_age: int) -> list[str]:
    """The lines for people: what was found, when, between which databases, and what to do now."""
    lines = [f"Last comparison: {time_text(state, max_age)}"]
    if state.status > 7:
        return [*lines, f"It failed with status {state.status}:", f"  {state.error}"]
    lines.append(f"{capitalized(result_text(state))}.")
    lines.append(database_line("Old", state.old, state.old_written))
    lines.append(database_line("New", state.new, state.new_written))
    return lines + command_lines(state)


def mail_lines(request: StatusRequest, defaults: OptionValues) -> list[str]:
    """What keeps the mails of the daily job from whoever reads them."""
    if request.state != defaults.get(STATE.attribute, DAILY):
        return []
    from aide_compare.mail.waiting import troubles

    queue = os.path.join(os.path.dirname(request.state), "mail")
    found = list(troubles(queue))
    if not found:
        return []
    return ["", *(f"Mails: {line}" for line in found)]


def write_text(request: StatusRequest, defaults: OptionValues) -> int:
    """What people read. Without a state it says how to get one."""
    if request.has_history:
        return write_history(request.state)
    if is_missing(request.state):
        text = f"no comparison is known: there is no {shown(request.state)}"
        hint = "aide-compare setup makes this machine ready for one each day"
        raise DeviceFault(text, hint)
    state = read_state(request.state)
    is_young = state.age is not None and not state.is_older(request.max_age)
    if request.is_quiet and state.told_status == 0 and is_young and not late_text(state):
        return Status.OK
    lines = [*paragraph(state, request.max_age), *mail_lines(request, defaults)]
    tell(*(guarded(line)[:MAX_LINE] for line in lines))
    return Status.OK


def write_history(path: str) -> int:
    """A table of the last nights."""
    nights = nights_of(path)
    if not nights:
        raise DeviceFault(
            f"no night is known: there is no {shown(history_path(path))}, or none in it"
        )
    tell(*table_of(nights[-HISTORY_NIGHTS:]))
    return Status.OK


def write_json(request: StatusRequest, _defaults: OptionValues) -> int:
    """The object of the state file. What is not known is null."""
    write_blocks(1, [read_state(request.state).text()])
    return Status.OK


def metric_lines(name: str, help: str, value: int | None) -> str:
    """The lines of a number for Prometheus; none if it is not known."""
    if value is None:
        return ""
    return f"# HELP {PREFIX}{name} {help}\n# TYPE {PREFIX}{name} gauge\n{PREFIX}{name} {value}\n"


def metrics_of(state: State) -> str:
    """The text that the node exporter reads."""
    values = (state.told_status, state.added, state.removed, state.changed, state.time)
    counts = {}
    if state.standings:
        counts = state.standings.numbers()
    rows = [(name, text, value) for (name, text), value in zip(ENTRIES.items(), values)]
    rows += [(f"{word}_changes", text, counts.get(word)) for word, text in CHANGES.items()]
    lines = [metric_lines(*row) for row in rows]
    column = f"{PREFIX}skipped_column"
    if state.skipped:
        lines.append(f"# HELP {column} A column that is not compared.\n# TYPE {column} gauge\n")
    for name in state.skipped:
        import json

        lines.append(f"{column}{{name={json.dumps(name, ensure_ascii=False)}}} 1\n")
    return "".join(lines)


def write_metrics(request: StatusRequest, _defaults: OptionValues) -> int:
    text = metrics_of(read_state(request.state)).encode()
    if request.output == STDOUT:
        write_blocks(1, [text])
    else:
        become_owner(request.output)
        replace(request.output, text, what="the metrics", makes_directory=False)
    return Status.OK


def write_check(request: StatusRequest, _defaults: OptionValues) -> int:
    answer = answer_of(request.state, request.max_age, request.warning, request.critical)
    tell(answer.line())
    return answer.level


WRITERS = {
    "text": write_text,
    "json": write_json,
    "prometheus": write_metrics,
    "nagios": write_check,
}


def request_of(arguments: Sequence[str], defaults: OptionValues) -> StatusRequest:
    request = read(StatusRequest, arguments, HELP, defaults)
    is_conditional = request.is_quiet or request.max_age != RESULT_AGE.default
    if request.has_history and request.format != "text":
        raise usage_fault("only --format text has --history")
    if is_conditional and request.format not in ("text", "nagios"):
        raise usage_fault("only --format text and --format nagios have --quiet and --max-age")
    if request.output != STDOUT:
        if request.format != "prometheus":
            raise usage_fault("only --format prometheus has an OUTPUT")
        if os.path.realpath(request.output) == os.path.realpath(request.state):
            raise usage_fault("OUTPUT is the state file")
    return request


def main(arguments: Sequence[str]) -> int:
    defaults = read_defaults(arguments).values(CHECK_DEFAULTS)
    request = request_of(arguments, defaults)
    return WRITERS[request.format](request, defaults)


def check(arguments: Sequence[str]) -> int:
    """check_aide_compare: the format of Nagios. Every failure is UNKNOWN, since 1 and 2 say what
    was found."""
    try:
        if "--version" in arguments:
            tell(f"aide-compare {VERSION}")
            return Level.UNKNOWN
        return main(["--format", "nagios", *arguments])
    except Done:
        return Level.UNKNOWN
    except Exception as error:
        tell(Answer(Level.UNKNOWN, why_of(error)).line())
        return Level.UNKNOWN
