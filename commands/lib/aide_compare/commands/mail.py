"""aide-compare mail: compares two databases and mails what differs, or why nothing was compared."""
from __future__ import annotations

import argparse
import os
import shlex
import time
from collections.abc import Callable, Iterator, Sequence
from contextlib import closing, suppress
from functools import partial
from typing import TYPE_CHECKING, NamedTuple

from aide_compare.base.ending import (
    EXPECTED,
    Fault,
    Status,
    fault_of,
    say,
    tell,
    why_of,
    write_all,
)
from aide_compare.base.escapes import encoded, guarded
from aide_compare.base.kinds import unit_name
from aide_compare.base.options import (
    ATTACH_PAGE,
    DAYS,
    MAIL_DEFAULTS,
    MAIL_TIME,
    STATE,
    TO,
    WEEKLY,
    field,
    option,
)
from aide_compare.base.parser import Defaults, Help, Parser, OptionValues, filled, read_defaults
from aide_compare.base.replacement import Replacement
from aide_compare.base.rights import become_owner, give_up
from aide_compare.commands.comparison_job import ComparisonJob, JobOutputs, JobOutput, keep_failure
from aide_compare.commands.compare_request import CompareRequest, refuse_names, work_request
from aide_compare.commands.defaults import comparison_defaults, machines_state
from aide_compare.compare.comparison import Comparison
from aide_compare.compare.state import State, failed_state, read_state
from aide_compare.mail.message import build, clean, host_name, subject_of
from aide_compare.mail.sending import deliver, send_all, transport_for
from aide_compare.show.result import result_text
from aide_compare.show.notes import told_of

if TYPE_CHECKING:
    from aide_compare.changes.judged import Judged

HELP = Help(
    name="aide-compare mail",
    usage="%(prog)s [OPTIONS] [OLD NEW]",
    description="""\
Compares as aide-compare does. Sends a mail of at most 80 lines if a change is not silent, or with
the errors if nothing was compared.""",
    epilog="""\
Status: that of aide-compare-compare(1); 18 if no mail can be sent. With --alarm-sent-is-success
it is 0 if the mail was sent or kept in the queue.""",
)


class MailRequest(CompareRequest):
    """What the options ask for."""

    address: str = field(TO, default="root", help="where the mail goes (root)")
    seconds: int = field(MAIL_TIME)
    has_page: bool = field(ATTACH_PAGE)
    is_test: bool = option("--test", "compare nothing, and send a test mail the same way")
    weekly: str | None = field(WEEKLY)
    # Of the units: keep the mail in a directory, send the mails of one, and mail first that a unit
    # has failed.
    queue: str | None = option("--queue", argparse.SUPPRESS, "DIRECTORY")
    send_queue: str | None = option("--send-queue", argparse.SUPPRESS, "DIRECTORY")
    unit_failed: str | None = option("--unit-failed", argparse.SUPPRESS, "NAME", kind=unit_name)
    sent_is_success: bool = option(
        "--alarm-sent-is-success", "end with 0 also after differences or errors that were mailed"
    )


class MailJob(NamedTuple):
    """What is compared and mailed, and how."""

    request: MailRequest
    defaults: Defaults
    fault: Fault | None = None  # Of the defaults: it is mailed.
    notes: Sequence[str] = ()  # What has to be said of the defaults.


def refuse_contradictions(
    request: MailRequest, command_line: OptionValues, fault: Fault | None
) -> None:
    """Refuses what means nothing without another word, or with it. `fault`: of the defaults."""
    refuse_names(filled(CompareRequest, command_line, {}))
    if "weekly" in command_line and not (request.state or fault):
        text = "--weekly needs --state: a file next to it says when the last one was sent"
        raise Fault(Status.USAGE, text)
    if request.unit_failed and not request.send_queue:
        raise Fault(Status.USAGE, "--unit-failed needs --send-queue")
    if request.send_queue and (request.queue or request.is_test or request.state):
        raise Fault(Status.USAGE, "--send-queue goes with none of --queue, --test and --state")
    if (request.send_queue or request.is_test) and command_line["databases"]:
        raise Fault(Status.USAGE, "with --send-queue or --test no databases are compared")


def job_of(words: Sequence[str]) -> MailJob:
    """What the options ask for, and the administrator's defaults where they say nothing. A fault of
    the defaults costs no mail, and the mail says it."""
    command_line = Parser(MailRequest, HELP).parse(words)
    compares = "send_queue" not in command_line and "is_test" not in command_line
    defaults = Defaults()
    values: OptionValues = {}
    notes: list[str] = []
    fault = None
    try:
        defaults = read_defaults(words)
        if compares:
            values = comparison_defaults(defaults, command_line["databases"], note=notes.append)
        values.update(defaults.values(MAIL_DEFAULTS))
    except Fault as error:
        fault = error
        if compares:
            values.setdefault(STATE.attribute, machines_state(defaults, command_line["databases"]))
        else:
            say(error.text)
    request = filled(MailRequest, command_line, values)
    refuse_contradictions(request, command_line, fault)
    return MailJob(request, defaults, fault, notes)


MAX_PAGE = 1 << 19  # Bytes of the page of a mail.
NO_PAGE = f"{HELP.name}: there is no page"


def message_of(
    job: MailJob,
    before: Sequence[str] | None,
    comparison: Comparison,
    judged: Judged | None,
) -> Iterator[bytes]:
    """The mail of a comparison. If a mistake of ours keeps it from being made, the comparison has
    failed, and the mail says only that."""
    try:
        yield from whole_message(job, before, comparison, judged)
    except Exception as error:
        if not comparison.has_failed:
            raise
        yield failure_message(job, comparison.fault or fault_of(error))


def whole_message(
    job: MailJob,
    before: Sequence[str] | None,
    comparison: Comparison,
    judged: Judged | None,
) -> Iterator[bytes]:
    """The mail of a comparison; nothing if it is no alarm. A column that is not compared is one,
    unless the last run has not compared it either, or no state is kept."""
    state = comparison.state()
    columns: list[str] = []
    if before is not None:
        columns = [name for name in state.skipped if name not in before]
    if not (state.told_status or columns or comparison.warnings):
        return
    notes = notes_of(job, comparison)
    page = None
    if job.request.has_page and comparison.differs:
        page = page_of(comparison, judged, notes)
    elif job.request.has_page and comparison.has_failed and comparison.lines:
        notes.append(f"{NO_PAGE}: the comparison has failed")
    lines = lines_of_mail(comparison, judged, notes)
    text = clean("".join(f"{line}\n" for line in lines))
    subject = subject_of(state, columns, comparison.warnings)
    yield build(job.request.address, subject, text, page)


def failure_notes(job: MailJob, fault: Fault) -> list[str]:
    """The lines of a mail that knows nothing of a comparison."""
    notes = [f"aide-compare: {guarded(text)}" for text in (fault.text, *fault.more)]
    return notes + [f"{HELP.name}: {note}" for note in job.notes]


def failure_message(job: MailJob, fault: Fault) -> bytes:
    from aide_compare.mail.columns import note_lines

    lines = note_lines(failure_notes(job, fault))
    return short_mail(job.request, f"failure (status {fault.status})", "\n".join((*lines, "")))


def notes_of(job: MailJob, comparison: Comparison) -> list[str]:
    """The lines beside the changes: what was not compared, what the program says, and what is wrong
    with the defaults."""
    warnings = {f"aide-compare: {guarded(warning)}" for warning in comparison.warnings}
    notes = [line for line in told_of(comparison).split("\n") if line and line not in warnings]
    return notes + [f"{HELP.name}: {note}" for note in job.notes]


def lines_of_mail(comparison: Comparison, judged: Judged | None, notes: Sequence[str]) -> list[str]:
    """The lines of the text. After a failure they have what is known of the changes all the
    same."""
    from aide_compare.mail.columns import note_lines
    from aide_compare.mail.text import MAX_LINES, Mail, text_of_changes, text_of_unjudged

    warnings = [guarded(warning) for warning in comparison.warnings]
    mail = Mail(comparison.state(), warnings, notes)
    if not (comparison.lines and comparison.lines.end.changes):
        if comparison.has_failed:
            return note_lines(notes, MAX_LINES)
        return [*note_lines(warnings), *note_lines(notes)]
    if judged is not None:
        try:
            return text_of_changes(mail, judged)
        except Exception:
            if not comparison.has_failed:
                raise  # The comparison fails by it, and then there is this mail once more.
    return text_of_unjudged(mail, comparison)


def page_of(comparison: Comparison, judged: Judged | None, notes: list[str]) -> bytes | None:
    """The page of the changes, or a note why there is none: an alarm is not lost for that."""
    why = "the changes are not known"
    if judged is not None:
        try:
            from aide_compare.show.page import page_of as parts_of

            return b"".join(parts_of(comparison, judged, MAX_PAGE))
        except EXPECTED as error:
            why = why_of(error)
    notes.append(f"{NO_PAGE}: {why}")
    return None


WEEK = 7 * 86400
TEST_TEXT = "This is a test of aide-compare mail. Mails of this host arrive.\n"


def short_mail(request: MailRequest, subject: str, text: str) -> bytes:
    """A mail that is not about changes."""
    return build(request.address, f"aide on {host_name()}: {subject}", clean(text))


def send_heartbeat(path: str, day: str, send: Callable[[], object]) -> None:
    """Sends a sign of life on its day, or a week after the last one. The time of an empty file says
    when that was."""
    today = time.localtime()
    sent = 0.0
    with suppress(FileNotFoundError):
        sent = os.lstat(path).st_mtime
    is_late = sent > 0 and time.time() - sent > WEEK
    is_new_day = today[:3] != time.localtime(sent)[:3]
    if is_late or (is_new_day and DAYS[today.tm_wday] == day):
        with closing(Replacement(path, what="the file of the heartbeat").begin()) as file:
            send()
            file.commit(())


class Compared(NamedTuple):
    """A comparison that has ended, and what is mailed of it."""

    state: State
    news: str  # What a log says that no mail could say.
    message: bytes  # Nothing if there is nothing to read.
    notes: Sequence[str] = ()


def compared(job: MailJob) -> Compared:
    """Compares, and puts the mail together."""
    mail: list[bytes] = []
    try:
        before = columns_before(job)
        if job.fault:
            raise job.fault
        work = work_request(job.request, job.defaults)
        row = JobOutput(mail.extend, partial(message_of, job, before), of_failure=True)
        ended = ComparisonJob(job.request, work, JobOutputs(after=[row])).carry_out()
        state = ended.state()
        news = "no difference"
        if state.status:
            news = subject_of(state)
        return Compared(state, news, b"".join(mail), notes_of(job, ended))
    except Exception as error:
        keep_failure(job.request.state, error)
        state = failed_state(error)
        news = f"aide on {host_name()}: failure (status {state.status})"
        if mail:  # About the first cause.
            say(why_of(error))
            return Compared(state, news, b"".join(mail))
        fault = fault_of(error)
        return Compared(state, news, failure_message(job, fault), failure_notes(job, fault))


def columns_before(job: MailJob) -> Sequence[str] | None:
    """The columns that the last run is known not to have compared; None if no state is asked."""
    if job.fault or not job.request.state:
        return None
    with suppress(Fault):
        return read_state(job.request.state).skipped
    return []


def compare_and_mail(job: MailJob) -> int:
    request = job.request
    state, news, message, notes = compared(job)
    if state.status == Status.USAGE:  # Who has typed it sees it at once.
        with suppress(OSError):
            write_all(2, encoded("".join(f"{note}\n" for note in notes)))
    try:
        way = transport_for(news, request.seconds, request.queue)
    except Fault as fault:
        raise Fault(fault.status, f"{fault.text}; the comparison ended with status {state.status}")
    if message:
        deliver(way, message)
    elif request.weekly and request.state:
        from aide_compare.mail.columns import note_lines

        text = "\n".join((f"The last comparison: {result_text(state)}.", *note_lines(notes), ""))
        message = short_mail(request, "nothing to read", text)
        send_heartbeat(f"{request.state}.quiet", request.weekly, partial(deliver, way, message))
    if request.sent_is_success:
        return Status.OK
    return state.told_status


def failure_text(unit: str) -> str:
    """What a mail says of the unit that should have queued one and has failed. systemd 251 and
    later say how, by variables, but give no status if what runs before the comparison failed."""
    result = os.environ.get("MONITOR_SERVICE_RESULT")
    if result == "success":  # That of the last time: this time it did not begin.
        how = "did not begin: AIDE, for which it waits, has not ended or has failed"
        return f"{unit} {how}. Its lines: journalctl -u {shlex.quote(unit)}"
    how = ""
    if result:
        how = f": {result}, status {os.environ.get('MONITOR_EXIT_STATUS', 'unknown')}"
    return f"{unit} failed{how}. Its lines: journalctl -u {shlex.quote(unit)}"


def empty_queue(request: MailRequest, directory: str) -> int:
    """Sends what waits, and first that the unit that should have queued a mail has failed."""
    news = f"what waits stays in {directory}"
    if request.unit_failed:
        news = failure_text(request.unit_failed)
    way = transport_for(news, request.seconds)
    if request.unit_failed:
        deliver(way, short_mail(request, "the comparison failed", f"{news}\n"))
    send_all(directory, way)
    return Status.OK


def main(arguments: Sequence[str]) -> int:
    job = job_of(arguments)
    request = job.request
    if request.user:
        give_up(request.user)
    else:
        become_owner(*(f"{path}/" for path in (request.queue, request.send_queue) if path))
    if request.send_queue:
        return empty_queue(request, request.send_queue)
    if request.is_test:
        way = transport_for("a test", request.seconds, request.queue)
        deliver(way, short_mail(request, "test", TEST_TEXT))
        tell(f"a test mail for {guarded(request.address)} is on its way: look whether it comes")
        return Status.OK
    return compare_and_mail(job)
