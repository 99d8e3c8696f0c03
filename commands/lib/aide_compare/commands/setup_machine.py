"""What setup finds on a machine: where its files are, AIDE's user, and the programs of the system;
and the examples that it puts there."""
from __future__ import annotations

import os
import pwd
from collections.abc import Sequence
from contextlib import suppress

from aide_compare.base.directories import open_directory
from aide_compare.base.ending import DeviceFault, Fault, OSErrorAsFault, tell
from aide_compare.base.escapes import shown
from aide_compare.base.files import read_file
from aide_compare.base.processes import run_here
from aide_compare.base.replacement import replace

HERE = os.path.dirname(os.path.realpath(__file__))
# Where the package, packaging/install and the repository have the examples.
EXAMPLES = (
    f"{HERE}/../../../../../share/doc/aide-compare/examples",
    f"{HERE}/../../../../contrib",
)


class Paths:
    """Where the files of a machine are."""

    def __init__(self, root: str) -> None:
        self.debian_configuration = f"{root}/etc/aide/aide.conf"
        self.other_configuration = f"{root}/etc/aide.conf"
        self.aides_job = f"{root}/etc/default/aide"
        # Those that the shipped list names.
        self.databases = [f"{root}/var/lib/aide/{name}" for name in ("aide.db", "aide.db.new")]
        self.own_directory = f"{root}/var/lib/aide-compare"
        self.defaults = f"{root}/etc/aide-compare/defaults"
        self.without = f"{root}/etc/aide-compare/without"
        self.apt = f"{root}/etc/apt/apt.conf.d/60aide-compare"
        self.cron_job = f"{root}/etc/cron.daily/zz-aide-compare"
        self.systemd = f"{root}/run/systemd/system"
        self.signed = f"{root}/etc/systemd/system/aide-compare.service.d/signed.conf"


PATHS = Paths("")
PROGRAM_PATH = "/usr/local/sbin:/usr/local/bin:/usr/sbin:/usr/bin:/sbin:/bin"
QUESTION_SECONDS = 60
ENVIRONMENT = {"PATH": PROGRAM_PATH, "LC_ALL": "C.UTF-8", "HOME": "/root"}
AIDES_USER = "_aide"
MAX_EXAMPLE = 1 << 20
SECONDS = 600


def example(name: str) -> bytes:
    """The bytes of an example that comes with the commands."""
    for directory in EXAMPLES:
        path = os.path.join(directory, name)
        if os.path.isfile(path):
            return read_file(os.path.realpath(path), MAX_EXAMPLE)
    raise DeviceFault(f"the example {name} did not come with this command")


def aides_configuration() -> str:
    """The path of AIDE's configuration; a Fault without one."""
    for path in (PATHS.debian_configuration, PATHS.other_configuration):
        if os.path.lexists(path):
            return path
    text = "AIDE is not installed here, or not configured; on Debian: apt install aide-common"
    raise DeviceFault(text)


def run_shown(words: Sequence[str], seconds: int = SECONDS) -> None:
    """Runs a program of the system, whose status has to be 0. It is shown first, and writes where
    this command writes."""
    tell(f"    {' '.join(words)}")
    with OSErrorAsFault(f"cannot run {words[0]}"):
        status = run_here(words, seconds, ENVIRONMENT)
    if status:
        raise DeviceFault(f"{words[0]} ended with status {status}")


def make_without() -> None:
    replace(PATHS.without, example("aide/debian.without"))


def make_signed() -> None:
    replace(PATHS.signed, example("aide/signed.conf"))
    run_shown(["systemctl", "daemon-reload"])


def make_cron_job() -> None:
    replace(PATHS.cron_job, example("cron/aide-compare.cron.daily"), 0o755)


def rename_safely(old: str, new: str) -> None:
    """Gives a file another name; a Fault if other users can write in one of the directories."""
    source, old_name = os.path.split(old)
    target, new_name = os.path.split(new)
    with open_directory(source) as here, open_directory(target) as there:
        for path, directory in ((source, here), (target, there)):
            if not directory.is_safe():
                raise DeviceFault(f"other users can write in {shown(path)}")
        with OSErrorAsFault(f"cannot rename {shown(old)}"):
            os.rename(old_name, new_name, src_dir_fd=here.fd, dst_dir_fd=there.fd)


def says_yes(words: Sequence[str]) -> bool:
    """Whether a program of the system ends with 0. It is not shown, and says nothing."""
    with suppress(Fault, OSError):
        return run_here(words, QUESTION_SECONDS, ENVIRONMENT, is_silent=True) == 0
    return False


def aides_user() -> pwd.struct_passwd:
    """The user that owns AIDE's databases."""
    try:
        return pwd.getpwnam(AIDES_USER)
    except KeyError:
        return pwd.getpwuid(0)
