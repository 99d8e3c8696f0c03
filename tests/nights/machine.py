"""A Debian or an Ubuntu in a directory: made by mmdebstrap, booted by systemd-nspawn, with commands
inside."""
from __future__ import annotations

import mailbox
import os
import re
import shutil
import subprocess
import time
from pathlib import Path
from typing import NamedTuple


class Release(NamedTuple):
    """Where the packages of a release come from, and what its name for a small kernel is."""

    suite: str
    mirror: str
    # The archive of security updates, and its suite.
    security: str
    components: str
    keyring: str
    kernel: str
    # What is installed beside PACKAGES.
    also: tuple[str, ...] = ()

    def source(self) -> str:
        """The line of sources.list for the release as it was published."""
        return f"deb [signed-by={self.keyring}] {self.mirror} {self.suite} {self.components}"


def debian(suite: str, also: tuple[str, ...] = ()) -> Release:
    """A release of Debian."""
    mirror = "http://deb.debian.org/debian"
    security = f"{mirror}-security {suite}-security"
    keyring = "/usr/share/keyrings/debian-archive-keyring.gpg"
    return Release(suite, mirror, security, "main", keyring, "linux-image-cloud-amd64", also)


# Debian 12 has a system log in files too, Debian 13 only the journal.
RELEASES = {
    "12": debian("bookworm", ("rsyslog",)),
    "13": debian("trixie"),
    "ubuntu-24.04": Release(
        "noble",
        "http://archive.ubuntu.com/ubuntu",
        "http://security.ubuntu.com/ubuntu noble-security",
        "main universe",
        "/usr/share/keyrings/ubuntu-archive-keyring.gpg",
        "linux-image-virtual",
        ("rsyslog",),
    ),
}
# AIDE is not among them: it is installed on the booted machine, as administrators do it.
PACKAGES = (
    "apt apt-listchanges bsdutils ca-certificates cron curl dbus gpgv iproute2 kmod less"
    " libpam-systemd login logrotate man-db openssh-server openssl passwd polkitd procps python3"
    " sudo systemd-sysv systemd-timesyncd udev unattended-upgrades vim-tiny libcap2-bin acl"
).split()
MAILERS = {
    "exim4": ["exim4-daemon-light"],
    "postfix": ["postfix"],
    "dma": ["dma"],
    "msmtp": ["msmtp-mta"],
}
ANSWERS = """\
exim4-config exim4/dc_eximconfig_configtype select local delivery only; not on a network
postfix postfix/main_mailer_type select Local only
postfix postfix/mailname string localhost
dma dma/mailname string localhost
dma dma/relayhost string
"""
SINK = Path(__file__).with_name("smtp_sink.py")
# Where the mail systems put the mails of root, whose name in /etc/aliases is anna.
MAILBOXES = ("var/mail/anna", "var/mail/root", "var/mail/mail", "var/log/smtp-sink")
ALARM = "aide on "
BOOT_SECONDS = 120
QUIET = {"stdout": subprocess.DEVNULL, "stderr": subprocess.DEVNULL}


def run(words: list[str], **more: object) -> subprocess.CompletedProcess[bytes]:
    """Runs a program of this machine, which has to succeed."""
    return subprocess.run(words, check=True, stdin=subprocess.DEVNULL, **more)  # type: ignore


def make_base(directory: Path, release: Release) -> None:
    """Makes a machine without a mailer, once for all machines of this release."""
    if directory.exists():
        return
    run(
        [
            "mmdebstrap",
            "--mode=root",
            "--variant=apt",
            '--aptopt=Apt::Install-Recommends "false"',
            "--include=" + ",".join([*PACKAGES, *release.also]),
            "--skip=cleanup/apt/lists",
            release.suite,
            str(directory),
            release.source(),
        ],
        **QUIET,
    )


def own_group(name: str) -> Path:
    """A control group for one machine: systemd in it takes the root of what it sees for its own, so
    two machines in one group would end each other's services."""
    mounts = [line.split() for line in Path("/proc/mounts").read_text().splitlines()]
    top = next(place for _, place, kind, *_ in mounts if kind == "cgroup2")
    group = Path(top) / f"nights-{name}"
    group.mkdir(exist_ok=True)
    return group


class Machine:
    """One machine: the directory of its files, and its systemd while it is booted."""

    def __init__(self, root: Path, name: str) -> None:
        self.root = root
        self.name = name
        self.process: subprocess.Popen[bytes] | None = None

    def make(self, base: Path, mailer: str) -> None:
        """Copies a base, and installs the mailer as apt does it without a question."""
        shutil.rmtree(self.root, ignore_errors=True)
        run(["cp", "-a", str(base), str(self.root)])
        self.write("etc/hostname", f"{self.name}\n")
        self.write("etc/hosts", Path("/etc/hosts").read_text() + f"127.0.1.1 {self.name}\n")
        self.write("usr/sbin/policy-rc.d", "#!/bin/sh\nexit 101\n", 0o755)
        self.chroot("debconf-set-selections", text=ANSWERS)
        self.chroot("apt-get", "install", "-y", "--no-install-recommends", *MAILERS[mailer])
        if mailer == "msmtp":
            self._add_sink()
        (self.root / "usr/sbin/policy-rc.d").unlink()
        self.chroot("useradd", "-m", "-s", "/bin/bash", "-G", "sudo", "anna")
        self.chroot("chpasswd", text="anna:secret\n")

    def _add_sink(self) -> None:
        """msmtp keeps no queue, so it needs a server: one that throws all mails away."""
        self.write(
            "etc/msmtprc", "account default\nhost 127.0.0.1\nport 2525\nfrom root@localhost\n"
        )
        self.write("usr/local/lib/smtp-sink/smtp_sink.py", SINK.read_text())
        unit = (
            "[Service]\nEnvironment=PYTHONPATH=/usr/local/lib/smtp-sink\n"
            "ExecStart=/usr/bin/python3 -B -c 'import smtp_sink; smtp_sink.serve()'\n"
            "[Install]\nWantedBy=multi-user.target\n"
        )
        self.write("etc/systemd/system/smtp-sink.service", unit)
        self.chroot("systemctl", "enable", "smtp-sink.service")

    def write(self, name: str, text: str, mode: int = 0o644) -> None:
        path = self.root / name
        path.parent.mkdir(parents=True, exist_ok=True)
        path.write_text(text)
        path.chmod(mode)

    def chroot(self, *words: str, text: str = "") -> None:
        """Runs a command in the files of the machine while it is off."""
        environment = {"PATH": "/usr/sbin:/usr/bin:/sbin:/bin", "DEBIAN_FRONTEND": "noninteractive"}
        subprocess.run(
            ["chroot", str(self.root), *words],
            check=True,
            input=text.encode(),
            env=environment,
            stdout=subprocess.DEVNULL,
        )

    def boot(self) -> None:
        """Starts systemd, and waits until it has started all that it starts."""
        words = ["systemd-nspawn", "--quiet", "--register=no", "--keep-unit", "--private-network"]
        words += ["--resolv-conf=off", "--timezone=off", "-D", str(self.root)]
        words += [f"--machine={self.name}", f"--hostname={self.name}", "--boot"]
        environment = {**os.environ, "SYSTEMD_NSPAWN_UNIFIED_HIERARCHY": "1"}
        enter = ["sh", "-c", 'echo $$ > "$0/cgroup.procs" && exec "$@"', str(own_group(self.name))]
        self.process = subprocess.Popen(
            enter + words,
            stdin=subprocess.DEVNULL,
            stdout=subprocess.DEVNULL,
            stderr=subprocess.DEVNULL,
            env=environment,
            start_new_session=True,
        )
        limit = time.monotonic() + BOOT_SECONDS
        while time.monotonic() < limit:
            time.sleep(1)
            if self._leader() and self.inside("systemctl", "is-system-running").stdout.strip() in (
                b"running",
                b"degraded",
            ):
                self.inside("ip", "link", "set", "lo", "up")
                return
        raise RuntimeError(f"{self.name} did not boot in {BOOT_SECONDS} seconds")

    def _leader(self) -> str:
        """The number of the machine's first process, as this machine counts."""
        assert self.process is not None
        children = Path(f"/proc/{self.process.pid}/task/{self.process.pid}/children")
        return children.read_text().split(" ")[0] if children.exists() else ""

    def inside(self, *words: str, text: bytes = b"") -> subprocess.CompletedProcess[bytes]:
        environment = {"PATH": "/usr/local/sbin:/usr/local/bin:/usr/sbin:/usr/bin:/sbin:/bin"}
        environment.update(HOME="/root", LC_ALL="C.UTF-8", DEBIAN_FRONTEND="noninteractive")
        enter = ["nsenter", "-t", self._leader(), "-a", "--"]
        return subprocess.run(enter + list(words), input=text, env=environment, capture_output=True)

    def shell(self, script: str) -> subprocess.CompletedProcess[bytes]:
        return self.inside("sh", "-c", script)

    def power_off(self) -> None:
        if self.process is None:
            return
        self.inside("systemctl", "poweroff")
        try:
            self.process.wait(BOOT_SECONDS)
        except subprocess.TimeoutExpired:
            self.process.kill()
            self.process.wait()
        self.process = None


def texts_of_mail(machine: Machine) -> list[str]:
    """The mails of aide-compare that came, the subject first; takes them all away."""
    found = []
    for name in MAILBOXES:
        path = machine.root / name
        if not path.is_file():
            continue
        for message in mailbox.mbox(path):
            subject = re.sub(r"\s+", " ", str(message["Subject"]))
            if subject.startswith(ALARM):
                payload = message.get_payload(decode=True)
                assert isinstance(payload, bytes)
                found.append(f"{subject}\n\n{payload.decode()}")
        path.write_bytes(b"")
    return found
