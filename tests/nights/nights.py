"""Nights of booted Debian and Ubuntu machines with each mail system, by hand: what differs, and what is
mailed.

For each machine: `aide-compare setup`, then one night after the other. A night is an event,
Debian's own daily check, and the units of the package. WORK keeps one file for each night, and the
databases. It needs root, mmdebstrap and systemd-nspawn.

Each night is accepted by `aide-compare accept`.
"""
from __future__ import annotations

import json
import re
import shutil
import sys
import time
from pathlib import Path

from tools.lib.arguments import parser_of
from tests.nights.machine import MAILERS, RELEASES, Machine, Release, make_base, texts_of_mail

HERE = Path(__file__).parent
NEW = "/var/lib/aide/aide.db.new"
BASELINE = "/var/lib/aide/aide.db"
ROOT_IS_ANNA = "root: anna"
PROGRAM = "/var/cache/example/program"
PROGRAMS = f"programs(made anew each night, for a trial) {PROGRAM}"
STOCK = "s/^Checksums = H$/Checksums = sha256/"
COUNTS = (
    "added removed changed same trusted left_out recorded open open_high status told_status".split()
)
LOG_IN = (
    "ssh -q -i /root/.ssh/id_ed25519 -o StrictHostKeyChecking=no -o UserKnownHostsFile=/dev/null"
)
# Packages that an event installs, downloaded while the machine is off.
SETUP = "aide aide-common"
INSTALL = "nginx-light jq tree"
DAILY = """
logger -p auth.info 'nights: a line'; logger -p mail.info 'nights: a line'; logger 'nights: a line'
printf 'Subject: cron\\n\\na job said something\\n' | sendmail -oi root
for unit in logrotate man-db dpkg-db-backup systemd-tmpfiles-clean exim4-base; do
    systemctl start $unit.service
done
# Without a network it would wait for minutes.
timeout 20 systemctl start apt-daily.service
systemctl stop apt-daily.service
for job in dpkg logrotate man-db exim4-base; do
    [ ! -x /etc/cron.daily/$job ] || /etc/cron.daily/$job
done
for queue in 'exim4 -q' 'postqueue -f' 'dma -q'; do
    command -v ${queue%% *} && $queue
done
sleep 3
"""
EVENTS = {
    "first": "true",
    "idle": DAILY,
    "rotation": DAILY + "logrotate -f /etc/logrotate.conf\n" + DAILY,
    "boot": "true",
    # systemd takes what a user has in /run away ten seconds after the last of his sessions.
    "login": f"for user in anna root; do {LOG_IN} $user@127.0.0.1 'id; sleep 1'; done; sleep 20",
    "session": "/root/sessions.sh",
    "install": f"apt-get install -y {INSTALL}",
    "upgrade": "unattended-upgrade -v",
    "kernel": "apt-get install -y {kernel}",
    # The list names this program as one that changes.
    "program": f"echo true >> {PROGRAM}",
}
# The first boot comes before anything else that an administrator does after `apt install aide`.
NIGHTS = (
    "first boot idle rotation rotation boot program login session install idle upgrade idle kernel"
    " idle"
).split()
DEBS = "var/cache/apt/archives"
MAIL_SECONDS = 60
QUIET_SECONDS = 10


class Nights:
    """The nights of one machine, and what came of them."""

    def __init__(
        self,
        machine: Machine,
        release: Release,
        results: Path,
        with_intruder: bool,
        is_stock: bool,
    ) -> None:
        self.machine = machine
        self.release = release
        self.results = results
        self.with_intruder = with_intruder
        self.is_stock = is_stock
        self.met: set[str] = set()  # Events that had their twin.
        results.mkdir(parents=True, exist_ok=True)

    def prepare(self, package: Path) -> None:
        """Everything that the events need later, so that no night needs a network."""
        machine, release = self.machine, self.release
        source = f"deb {release.security} {release.components}\n"
        machine.write("etc/apt/sources.list.d/security.list", source)
        machine.chroot("apt-get", "update")
        machine.chroot("apt-get", "clean")
        self.download("setup", "install", *SETUP.split())
        self.download("install", "install", *INSTALL.split())
        self.download("upgrade", "upgrade")
        self.download("kernel", "install", release.kernel)
        shutil.copyfile(package, machine.root / "var/tmp/aide-compare.deb")
        machine.chroot("ssh-keygen", "-q", "-t", "ed25519", "-N", "", "-f", "/root/.ssh/id_ed25519")
        for home, owner in (("root", "root"), ("home/anna", "anna")):
            key = (machine.root / "root/.ssh/id_ed25519.pub").read_text()
            machine.write(f"{home}/.ssh/authorized_keys", key, 0o600)
            machine.chroot("chown", "-R", owner, f"/{home}/.ssh")
            machine.chroot("chmod", "700", f"/{home}/.ssh")
        for name in ("intruder.sh", "sessions.sh"):
            machine.write(f"root/{name}", (HERE / name).read_text(), 0o755)

    def debs(self, event: str) -> Path:
        return self.results / f"{event}.debs"

    def download(self, event: str, *words: str) -> None:
        """Keeps the packages of an event away from the machine until they are wanted there."""
        if self.debs(event).exists():
            return
        self.machine.chroot("apt-get", words[0], "-y", "-d", *words[1:])
        self.debs(event).mkdir()
        for path in (self.machine.root / DEBS).glob("*.deb"):
            shutil.move(path, self.debs(event))

    def hand_over(self, event: str) -> None:
        """Puts the packages of an event where apt would put them at once."""
        if self.debs(event).exists():
            for path in self.debs(event).iterdir():
                shutil.copy(path, self.machine.root / DEBS)

    def shell(self, name: str, script: str) -> None:
        """Runs an event on the machine, and keeps what it printed."""
        done = self.machine.shell(script)
        (self.results / f"{name}.event").write_bytes(done.stdout + done.stderr)

    def install(self) -> None:
        """AIDE and the package, as an administrator installs both on the running machine."""
        self.hand_over("setup")
        # adduser leaves a lock behind, which the first boot takes away.
        script = (
            "adduser --quiet --disabled-password --gecos '' bert;"
            f" apt-get install -y {SETUP} && dpkg -i /var/tmp/aide-compare.deb"
        )
        self.shell("00-install", script)

    def set_up(self) -> None:
        self.install()
        if not self.is_stock:
            # One digest instead of eleven: a check takes seconds then, and says as much.
            self.machine.inside("sed", "-i", STOCK, "/etc/aide/aide.conf")
        # As Debian's installer and the last lines of setup have it.
        self.machine.shell(f"echo '{ROOT_IS_ANNA}' >> /etc/aliases; newaliases; true")
        self.add_program()
        # What a machine does on its first day, and never again. Without a network it waits.
        unit = "apt-listchanges.service"
        self.machine.shell(f"timeout 60 systemctl start {unit}; systemctl stop {unit}")
        done = self.machine.inside("aide-compare", "setup")
        (self.results / "setup.txt").write_bytes(done.stdout + done.stderr)
        if done.returncode:
            raise RuntimeError(f"setup ended with {done.returncode}: {done.stderr!r}")

    def add_program(self) -> None:
        """A program in a cache, which a line of the list names with its reason."""
        self.machine.write(PROGRAM[1:], "#!/bin/sh\n", 0o755)
        with self.path("/etc/aide-compare/without").open("a") as file:
            file.write(f"{PROGRAMS}\n")

    def night(self, number: int, event: str) -> None:
        """One night, and its twin with an intruder; then the clean night is the baseline."""
        if event == "boot":
            self.machine.power_off()
            self.machine.boot()
        name = f"{number:02}-{event}"
        self.hand_over(event)
        self.shell(name, EVENTS[event].replace("{kernel}", self.release.kernel))
        self.report(name, self.check())
        clean = self.keep_database(name)
        if self.with_intruder and event not in {"first", *self.met}:
            marks = self.machine.inside("/root/intruder.sh", "plant").stdout.decode().split()
            self.report(f"{name}-intruder", self.check(), marks)
            self.keep_database(f"{name}-intruder")
            self.machine.inside("/root/intruder.sh", "undo")
        self.met.add(event)
        self.path(NEW).write_bytes(clean)
        self.accept(name)

    def keep_database(self, name: str) -> bytes:
        """Keeps the database that AIDE has just written, by gzip, and returns it."""
        database = self.path(NEW).read_bytes()
        (self.results / f"{name}.db.gz").write_bytes(database)
        return database

    def accept(self, name: str) -> None:
        """Accepts the new database as a mail says it."""
        text = f"zcat -f {NEW} | sha256sum | cut -c1-64"
        digest = self.machine.shell(text).stdout.decode().strip()
        words = ["aide-compare", "accept", "--sha256", digest, NEW, BASELINE]
        done = self.machine.inside(*words)
        if done.returncode:
            raise RuntimeError(f"{name} was not accepted: {done.stderr!r}")

    def path(self, name: str) -> Path:
        return self.machine.root / name[1:]

    def check(self) -> dict[str, str]:
        """Debian's daily check, and the units of the package. Returns the state as words."""
        inside = self.machine.inside
        inside("systemctl", "reset-failed")  # A check may start once in two hours.
        if inside("systemctl", "start", "dailyaidecheck.service").returncode:
            log = inside("journalctl", "--unit=dailyaidecheck", "--lines=20", "--output=cat").stdout
            raise RuntimeError(f"AIDE's daily check has failed: {log.decode()}")
        texts_of_mail(self.machine)
        inside("systemctl", "start", "aide-compare.service")
        time.sleep(3)
        limit = time.monotonic() + MAIL_SECONDS
        while time.monotonic() < limit:
            if b"inactive" in inside("systemctl", "is-active", "aide-compare-mail.service").stdout:
                break
            time.sleep(1)
        text = self.path("/var/lib/aide-compare/daily/state").read_text()
        return {key: str(value) for key, value in json.loads(text).items()}

    def mail(self, is_wanted: bool) -> list[str]:
        """The mails that came. A mail system may take a moment, or keep them in its queue."""
        limit = time.monotonic() + (MAIL_SECONDS if is_wanted else QUIET_SECONDS)
        while time.monotonic() < limit:
            texts = texts_of_mail(self.machine)
            if texts:
                return texts
            time.sleep(2)
        return []

    def report(self, name: str, state: dict[str, str], marks: list[str] | None = None) -> None:
        """Keeps the changes as lines and as the mail, and prints one line."""
        if state["status"] != "0":
            lines = self.machine.inside("aide-compare", "json").stdout
            (self.results / f"{name}.json").write_bytes(lines)
        texts = self.mail((state["open"], state["recorded"]) != ("0", "0"))
        (self.results / f"{name}.mail").write_text("\n\n".join(texts))
        body = texts[-1].partition("\n\n")[2].splitlines() if texts else []
        counts = {key: state[key] for key in COUNTS if state.get(key, "0") not in ("", "0")}
        said = f"{self.machine.name} {name}: {json.dumps(counts)}"
        said += f", {len(texts)} mails, {len(body)} lines"
        if marks is not None:
            said += f", {len(marks)} marks, not in the first 40 lines: "
            said += " ".join(missing(marks, body[:40])) or "none"
            said += f", the last of them in line {line_of_last(marks, body)}"
        print(said, flush=True)


def names(line: str, mark: str) -> bool:
    """Whether a line names this path, and not only one below it."""
    return re.search(re.escape(mark) + r"(?![\w/.])", line) is not None


def missing(marks: list[str], lines: list[str]) -> list[str]:
    return [mark for mark in marks if not any(names(line, mark) for line in lines)]


def line_of_last(marks: list[str], lines: list[str]) -> int:
    """The number of the line that names the last one of those marks that are named."""
    last = 0
    for mark in marks:
        numbers = [number for number, line in enumerate(lines, 1) if names(line, mark)]
        last = max([last, *numbers[:1]])
    return last


def main() -> int:
    parser = parser_of("tests.nights.nights", __doc__)
    parser.add_argument("--work", type=Path, required=True, help="a directory for the machines")
    parser.add_argument("--package", type=Path, required=True, help="the package of aide-compare")
    parser.add_argument("--release", choices=RELEASES, required=True)
    parser.add_argument("--mailer", choices=MAILERS, required=True)
    parser.add_argument("--intruder", action="store_true", help="each event has a twin")
    parser.add_argument("--stock", action="store_true", help="all digests of AIDE's stock rules")
    parser.add_argument("--nights", nargs="+", choices=EVENTS, default=NIGHTS)
    args = parser.parse_args()
    release = RELEASES[args.release]
    base = args.work / f"base-{args.release}"
    make_base(base, release)
    name = f"{release.suite}-{args.mailer}"
    machine = Machine(args.work / name, name)
    results = args.work / "results" / name
    nights = Nights(machine, release, results, args.intruder, args.stock)
    machine.make(base, args.mailer)
    try:
        nights.prepare(args.package)
        machine.boot()
        nights.set_up()
        for number, event in enumerate(args.nights):
            nights.night(number, event)
    finally:
        machine.power_off()
    return 0


if __name__ == "__main__":
    sys.exit(main())
