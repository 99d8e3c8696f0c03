"""How a mail leaves this machine: sendmail with a time limit, and the system log if that does not
take it. It may first wait in a directory for the unit that sends it: there each is a file with the
whole message, put there in one step.

A way is a function that is given the bytes of a message, and raises a Fault if it was not taken.
"""
from __future__ import annotations

import fcntl
import os
import socket
import stat
import time
from collections.abc import Callable
from contextlib import ExitStack, closing, suppress
from functools import partial

from aide_compare.base.directories import Directory, closed_after, names_in
from aide_compare.base.directories import open_directory
from aide_compare.base.ending import DeviceFault, Fault, OSErrorAsFault, fault_of, say
from aide_compare.base.escapes import encoded, shown
from aide_compare.base.files import Lock, in_memory
from aide_compare.base.processes import run_on
from aide_compare.base.replacement import replace
from aide_compare.mail.message import shortened

MAILERS = (
    "/usr/sbin/sendmail",
    "/usr/lib/sendmail",
)  # cron's PATH does not have their directories.
LOG = "/dev/log"
MAIL = ".mail"  # The ending of a message that waits.
JOURNAL = "/run/systemd/journal/socket"
AUTH_ALERT = 4 * 8 + 1
MAX_ANSWER = 1 << 16
LOG_SECONDS = 5
MAX_WAITING = 64
MAX_MAIL_BYTES = 64 << 20  # Of a mail that waits.

Transport = Callable[[bytes], object]


def find_mailer() -> str:
    """The path of sendmail, which has to be there."""
    directories = os.environ.get("PATH", "").split(":")
    beside = [f"{directory}/sendmail" for directory in directories if directory.startswith("/")]
    for path in (*beside, *MAILERS):
        if os.path.isfile(path) and os.access(path, os.X_OK):
            return path
    raise DeviceFault("cannot find sendmail, so no mail can be sent")


def by_sendmail(path: str, seconds: int, message: bytes) -> None:
    """Hands a message to sendmail, which lives on if this process is ended: a mail that is on its
    way should go. Postfix's one tries for ever if it cannot write to the spool, so it gets a time
    limit."""
    sealed = os.MFD_CLOEXEC | os.MFD_ALLOW_SEALING
    with closed_after(in_memory(message)) as source:
        with closed_after(os.memfd_create("answer", sealed)) as answer:
            os.lseek(source, 0, os.SEEK_SET)
            os.ftruncate(answer, MAX_ANSWER)  # What sendmail says cannot grow beyond that.
            fcntl.fcntl(answer, fcntl.F_ADD_SEALS, fcntl.F_SEAL_GROW)
            code = run_on([path, "-oi", "-t"], {0: source, 1: answer, 2: answer}, seconds)
            said = os.pread(answer, MAX_ANSWER, 0).strip(b"\0")
    if code == 0:
        return
    how = f"sendmail did not end within {seconds} seconds"
    if code is not None:
        how = f"status {code if code > 0 else 128 - code} of sendmail"
    lines = [line for line in said.split(b"\n") if line.strip()]
    why = "it gave no reason"
    if lines:
        why = shown(lines[-1], 300)
    raise DeviceFault(f"{how}: {why}")


def alert(text: str) -> bool:
    """One line in the system log at the priority `alert`; False if there is no log either."""
    line = f"aide-compare mail: {shown(text, 800)}"
    fields = ("PRIORITY=1", "SYSLOG_FACILITY=4", "SYSLOG_IDENTIFIER=aide-compare")
    entry = "".join(f"{field}\n" for field in (*fields, f"MESSAGE={line}"))
    for path, data in ((LOG, f"<{AUTH_ALERT}>{line}"), (JOURNAL, entry)):
        with suppress(OSError), socket.socket(socket.AF_UNIX, socket.SOCK_DGRAM) as log:
            log.settimeout(LOG_SECONDS)
            log.connect(path)
            log.send(encoded(data))
            return True
    return False


def refusal_of(way: Transport, message: bytes) -> str | None:
    """Why a message was not taken, or None. One such reason is that no process can be started, or
    no pipe made for it."""
    try:
        with OSErrorAsFault("nothing can be started to send it"):
            way(message)
    except Fault as fault:
        return fault.text
    return None


def deliver(way: Transport, message: bytes) -> None:
    """Sends a message; a short one if it is refused, and says so; then a line in the system log,
    and a Fault."""
    why = refusal_of(way, message)
    if why is None:
        return
    short = shortened(message, why)
    if refusal_of(way, short) is None:
        say(f"only a short mail was sent: {why}")
        return
    import email

    subject = email.message_from_bytes(short)["Subject"]
    log = "there is no system log either"
    if alert(f"no mail could be sent ({why}): {subject}"):
        log = "the system log has a line at priority alert"
    raise DeviceFault(f"cannot send the mail: {why}; {log}")


def queue_transport(path: str) -> Transport:
    """A way that keeps a message in this directory for the unit that sends it, to which a link may
    lead elsewhere, as into a /tmp of its own."""
    with open_directory(path, make=True) as directory:
        if os.path.islink(path):
            raise DeviceFault(f"{shown(path)} is a link: no mail would be sent")
        if len(names_in(directory, MAIL)) >= MAX_WAITING:
            raise DeviceFault(f"{MAX_WAITING} mails wait already in {shown(path)}: none is sent")
    name = f"{time.time_ns():020d}-{os.getpid()}{MAIL}"

    def keep(message: bytes) -> None:
        replace(os.path.join(path, name), message, 0o600, "the mail that waits")

    return keep


def transport_for(news: str, seconds: int, queue: str | None = None) -> Transport:
    """The way of a mail; none leaves before that is there. Without it the system log has the
    news."""
    try:
        if queue:
            return queue_transport(queue)
        return partial(by_sendmail, find_mailer(), seconds)
    except Fault as fault:
        alert(f"{fault.text}; {news}")
        raise


def waiting_mail(directory: Directory, name: str) -> bytes:
    """A message that waits; a Fault if it is anything else than a regular file of the caller."""
    flags = os.O_NOFOLLOW | os.O_NONBLOCK
    with open(os.open(name, flags, dir_fd=directory.fd), "rb") as file:
        status = os.fstat(file.fileno())
        is_ours = stat.S_ISREG(status.st_mode) and status.st_uid == os.geteuid()
        if not is_ours or status.st_size > MAX_MAIL_BYTES:
            raise DeviceFault(f"{shown(name)} is no mail that this user has put there")
        return file.read()


def send_all(path: str, way: Transport) -> None:
    """Sends what waits, the oldest first. What cannot be sent stays, and is tried again the next
    time."""
    failed = None
    with open_directory(path, make=True) as directory, ExitStack() as locked:
        with suppress(OSError):  # Without it all is sent too: one may go twice, none is lost.
            locked.enter_context(closing(Lock(directory.fd, "sending")))
        for name in names_in(directory, MAIL):
            try:
                what = f"cannot send or remove the mail {shown(name)}"
                with OSErrorAsFault(what), suppress(FileNotFoundError):  # Another run has sent it.
                    deliver(way, waiting_mail(directory, name))
                    os.unlink(name, dir_fd=directory.fd)
            except Exception as error:  # Such as of a message that nobody can read.
                failed = fault_of(error)
    if failed:
        raise failed
