"""aide-compare setup: makes a machine ready for a comparison each day. What is missing is made,
step by step, and what is there stays. Each step looks again at what it needs, so the command can be
run a second time, or after it was interrupted."""
from __future__ import annotations

import os
import re
import stat
from collections.abc import Callable, Iterator, Sequence
from contextlib import suppress
from functools import partial
from typing import NamedTuple

from aide_compare.base.ending import DeviceFault, Fault, Status, tell, usage_fault
from aide_compare.base.escapes import shown
from aide_compare.base.files import is_missing, reopened
from aide_compare.base.replacement import replace
from aide_compare.base.directories import closed_after, open_directory
from aide_compare.base.options import DATABASES, QUIET, TO, Request, field, option
from aide_compare.base.parser import Help, read
from aide_compare.base.words import counted
from aide_compare.commands.setup_machine import (
    PATHS,
    aides_configuration,
    aides_user,
    make_cron_job,
    make_signed,
    make_without,
    rename_safely,
    run_shown,
    says_yes,
)
from aide_compare.commands.setup_options import (
    DAILY,
    has_options,
    options_there,
    text_there,
    write_options,
)
from aide_compare.commands.setup_databases import databases_there
from aide_compare.mail.waiting import troubles

HELP = Help(
    name="aide-compare setup",
    description="""\
Makes this machine ready for a comparison each day. Each step is printed before it is taken. What is
done already is passed over, except the test mail.""",
    epilog="""\
Status: 0 done, or nothing is missing; 15 bad arguments, or not root; 17 no two databases are
named; 18 a step failed, or --check found something missing.""",
)
TIMER = "aide-compare.timer"
EXIM = "Exim puts it into /var/mail/mail if /etc/aliases has no line for root, such as root: YOU"
COPIES = r"(?m)^[^#\n]*\bCOPYNEWDB=\W?(?:yes|ifn)"
PROGRAM_OF_JOB = r"(?m)^\[ -x (\S+) \]"
DATABASE_STARTS = (b"\x1f\x8b", b"@@begin_db", b"#")
SECONDS_OF_INIT = 6 * 3600
# What aide-compare archive reads. What a newer package replaces goes again.
APT_TEXT = b"""\
// Packages stay for aide-compare archive. See aide-compare-setup(8).
Binary::apt::APT::Keep-Downloaded-Packages "true";
Unattended-Upgrade::Keep-Debs-After-Install "true";
APT::Periodic::AutocleanInterval "7";
"""


class SetupRequest(Request):
    """What the options ask for."""

    is_quiet: bool = field(QUIET, help="list no step, and nothing that is missing")
    is_check: bool = option("--check", "print what is missing, and change nothing")
    address: str | None = field(TO, help="who gets the mails (root)")
    no_mail: bool = option("--no-mail", "send no test mail")


class Step(NamedTuple):
    """A step: what it makes, whether that is there, and how it is made."""

    title: str
    is_done: bool
    make: Callable[[], None]


class Machine:
    """The machine that is made ready, as far as the steps have to know it."""

    def __init__(self, request: SetupRequest) -> None:
        self.request = request
        self.user = aides_user()
        self.is_debian = aides_configuration() == PATHS.debian_configuration
        # On Ubuntu 22.04 cron runs AIDE as root, and the user of the timer's units is not there.
        has_user = self.user.pw_uid != 0 or not self.is_debian
        self.has_timer = has_user and os.path.isdir(PATHS.systemd)
        self.baseline, self.new = databases_there()
        self.daily = f"{PATHS.own_directory}/{DAILY}"
        # What the job of each day needs.
        self.needed = [
            f"{DATABASES.name} {self.baseline} {self.new}",
            "--max-age 50h",
            f"--state {self.daily}/state",
        ]
        if self.is_debian:
            self.needed.append(f"--trusted {self.daily}/signed.db.old {self.daily}/signed.db")
            if [self.baseline, self.new] != PATHS.databases:
                own = (self.baseline, self.new, f"{self.baseline}.previous")
                self.needed += [f"--exclude {path}" for path in own]

    def owns(self, path: str) -> bool:
        """Whether what is by a path is the user's; False if there is nothing to see."""
        with suppress(OSError):
            return os.lstat(path).st_uid == self.user.pw_uid
        return False

    def make_baseline(self) -> None:
        """Lets AIDE write the first database. On Debian AIDE has a command for that; elsewhere what
        it writes gets the baseline's name."""
        if self.is_debian:
            run_shown(["aideinit", "-y"], SECONDS_OF_INIT)
        else:
            run_shown(["aide", "--init"], SECONDS_OF_INIT)
            rename_safely(self.new, self.baseline)
        if not os.path.lexists(self.baseline):
            raise DeviceFault(f"AIDE has not written {shown(self.baseline)}")

    def give(self, path: str) -> None:
        """Gives a database that root has made to the user. Others can write in the directory, so
        nothing goes by its name: it is one file of root's, with no other name, that begins as a
        database does."""
        flags = os.O_PATH | os.O_NOFOLLOW | os.O_CLOEXEC
        above, name = os.path.split(path)
        with open_directory(above) as directory:
            with closed_after(os.open(name, flags, dir_fd=directory.fd)) as file:
                status = os.fstat(file)
                is_single = stat.S_ISREG(status.st_mode) and status.st_nlink == 1
                if not is_single or status.st_uid not in (0, self.user.pw_uid):
                    raise DeviceFault(
                        f"{shown(path)} is not a regular file of root with one hard link"
                    )
                opened = reopened(file, os.O_RDONLY)
        with closed_after(opened):
            if not os.pread(opened, 10, 0).startswith(DATABASE_STARTS):
                raise DeviceFault(f"{shown(path)} is not a database of AIDE")
            os.fchown(opened, self.user.pw_uid, self.user.pw_gid)

    def make_directory(self) -> None:
        with open_directory(PATHS.own_directory, make=True) as directory:
            if not directory.is_safe():
                raise DeviceFault(f"other users can write in {PATHS.own_directory}")
            with suppress(FileExistsError):
                os.mkdir(DAILY, 0o755, dir_fd=directory.fd)
            flags = os.O_RDONLY | os.O_DIRECTORY | os.O_NOFOLLOW | os.O_CLOEXEC
            with closed_after(os.open(DAILY, flags, dir_fd=directory.fd)) as inner:
                # Whatever the umask is: others read the state. The owner comes last, since by that
                # the step is known to be done.
                os.fchmod(inner, 0o755)
                os.fchown(inner, self.user.pw_uid, self.user.pw_gid)

    def has_job(self) -> bool:
        """Whether there is one that will run: a timer that was stopped is on again only after the
        next boot."""
        if not self.has_timer:
            return os.path.lexists(PATHS.cron_job)
        return all(
            says_yes(["systemctl", state, "--quiet", TIMER])
            for state in ("is-enabled", "is-active")
        )

    def other_jobs(self) -> Iterator[str]:
        """Yields what only an administrator can mend. With two jobs each mail would come twice. One
        that an installation elsewhere has left ends without a word. If AIDE's own makes what it
        wrote the baseline, there would never be a difference."""
        if self.has_timer and os.path.lexists(PATHS.cron_job):
            yield f"{PATHS.cron_job} compares too, and with systemd the timer does: remove it"
        elif program := re.search(PROGRAM_OF_JOB, text_there(PATHS.cron_job)):
            if not os.path.lexists(program[1]):
                yield f"{PATHS.cron_job} does nothing without {shown(program[1])}: remove it"
        if re.search(COPIES, text_there(PATHS.aides_job)):
            yield f"{PATHS.aides_job} makes new databases the baseline: write COPYNEWDB=no"

    def reader(self) -> str:
        """Who gets the mails."""
        return self.request.address or shown(options_there().get("--to", "root"))

    def summary(self, count: int) -> list[str]:
        """The last lines: what was done, and what comes next."""
        done = "All was there already."
        if count:
            done = f"Done: {counted(count, 'step')} now."
        job = "The job of cron compares each day."
        if self.has_timer:
            job = f"The timer compares each day: systemctl list-timers {TIMER}"
        reader = self.reader()
        mail = f"Then {reader} gets a mail if a change is not silent, or if nothing was compared."
        lines = ["", done, job, mail, "To compare now: aide-compare"]
        if not self.request.no_mail:
            lines += ["", f"A test mail went to {reader}: look now whether it came."]
            if reader == "root":
                lines.append(EXIM)
        return lines

    def send_test(self) -> None:
        words = ["aide-compare", "mail", "--test", "--user", self.user.pw_name]
        if self.request.address:
            words.append(f"--to={self.request.address}")
        try:
            run_shown(words)
        except Fault:
            advice = "install a mail system, or go on with --no-mail"
            raise DeviceFault(f"the test mail was not sent; {advice}")

    def job(self) -> Step:
        if self.has_timer:
            make = partial(run_shown, ["systemctl", "enable", "--now", TIMER])
            return Step(f"the timer {TIMER}", self.has_job(), make)
        return Step(PATHS.cron_job, self.has_job(), make_cron_job)

    def steps(self) -> Iterator[Step]:
        """Yields the steps. The job and the first mail leave files of their own. So they come
        before the baseline, which then has these."""
        user = self.user.pw_name
        if self.is_debian:
            title = f"paths that change every day: {PATHS.without}"
            yield Step(title, os.path.lexists(PATHS.without), make_without)
            title = f"apt keeps the packages that it installs: {PATHS.apt}"
            keep = partial(replace, PATHS.apt, APT_TEXT)
            yield Step(title, os.path.lexists(PATHS.apt), keep)
        title = f"options of each day: {PATHS.defaults}"
        asked = (self.request.address, self.needed)
        yield Step(title, has_options(*asked), partial(write_options, *asked))
        title = f"a directory of the user {user}: {self.daily}"
        yield Step(title, self.owns(self.daily), self.make_directory)
        if self.is_debian and self.has_timer:
            title = f"upgrades to signed packages are silent: {PATHS.signed}"
            yield Step(title, os.path.lexists(PATHS.signed), make_signed)
        yield self.job()
        if not (self.request.no_mail or self.request.is_check):
            yield Step(f"a test mail to {self.reader()}", False, self.send_test)
        title = f"the baseline {shown(self.baseline)}, which takes several minutes"
        yield Step(title, not is_missing(self.baseline), self.make_baseline)
        for path in filter(os.path.lexists, (self.baseline, self.new)):
            title = f"the owner of {shown(path)}: {user}"
            yield Step(title, self.owns(path), partial(self.give, path))


def take_steps(machine: Machine) -> None:
    """Makes what is missing, unless a job is in its way."""
    others = list(machine.other_jobs())
    if others:
        raise DeviceFault(*others)
    count = 0
    for number, step in enumerate(machine.steps(), 1):
        if step.is_done:
            tell(f"{number}. {step.title} (already)")
            continue
        tell(f"{number}. {step.title}")
        count += 1
        step.make()
    tell(*machine.summary(count))


def tell_missing(machine: Machine) -> int:
    """Says what is missing, and changes nothing."""
    missing = [step.title for step in machine.steps() if not step.is_done]
    missing += [*machine.other_jobs(), *troubles(f"{machine.daily}/mail")]
    if not missing:
        tell("nothing is missing")
        return Status.OK
    tell(*(f"missing: {title}" for title in missing))
    verb = "is" if len(missing) == 1 else "are"
    tell(f"{counted(len(missing), 'thing')} {verb} missing")
    return Status.DEVICE


def main(arguments: Sequence[str]) -> int:
    if "--dry-run" in arguments:
        raise usage_fault(
            "there is no --dry-run: --check says what is missing, and changes nothing"
        )
    request = read(SetupRequest, arguments, HELP)
    if request.is_quiet:  # Also the programs that are run.
        os.dup2(os.open("/dev/null", os.O_WRONLY | os.O_CLOEXEC), 1)
    if os.geteuid() != 0 and not request.is_check:
        raise Fault(Status.USAGE, "only root can set this up; --check is for everybody")
    os.chdir("/")  # Where the programs of the system work.
    machine = Machine(request)
    if request.is_check:
        return tell_missing(machine)
    take_steps(machine)
    return Status.OK
