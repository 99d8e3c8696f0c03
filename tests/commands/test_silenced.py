"""Attacks that silenced, or hid among others, what an intruder did. Each is told now, by its path,
or by the package that it says to be of, and raises an alarm."""
from __future__ import annotations

from typing import Any

from tests.commands import mail
from tests.commands.made_up import MORE_ACL, Host, Package, acl_of, time_of
from tests.commands.test_standings import NAGIOS, TOOL

ONE, TWO = b"one", b"two"
INFO = b"/var/lib/dpkg/info/"
LISTED_FIRST = 60
# Places from which something is started or loaded, and where accounts and keys are.
RECORDED = "Recorded, as dpkg on this host says:"
AUTOSTART = (
    b"/etc/sudoers.d/zz",
    b"/etc/cron.d/zz",
    b"/etc/pam.d/zz",
    b"/etc/ssh/sshd_config.d/zz.conf",
    b"/etc/ld.so.conf.d/zz.conf",
    b"/etc/systemd/system/zz.service",
    b"/etc/apt/apt.conf.d/99zz",
    b"/etc/dpkg/dpkg.cfg.d/zz",
    b"/etc/modprobe.d/zz.conf",
    b"/etc/aide/aide.conf.d/zz",
    b"/etc/aide-compare/without",
    b"/usr/lib/x86_64-linux-gnu/security/pam_zz.so",
    b"/usr/lib/x86_64-linux-gnu/libnss_zz.so.2",
    b"/usr/local/bin/ls",
    b"/usr/share/polkit-1/rules.d/zz.rules",
)


def upgrade_night(packages: int) -> Host:
    """A night on which packages were upgraded."""
    host = Host()
    for number in range(packages):
        path = b"/usr/share/p%02d/file" % number
        host.old.file(path, ONE)
        host.new.file(path, TWO)
        for kind in (b"list", b"md5sums"):
            name = INFO + b"p%02d.%s" % (number, kind)
            host.old.file(name, ONE)
            host.new.file(name, TWO, mtime=time_of(2000))
        host.packages.append(Package(f"p{number:02}", "2", {path: TWO}))
    return host


SWALLOWED = (
    *(INFO + b"apt.postinst", INFO + b"apt.prerm", b"/etc/ld.so.cache", b"/etc/rc2.d/S01zz"),
    *(b"/var/lib/dpkg/statoverride", b"/var/lib/dpkg/triggers/File"),
)


def with_marks(host: Host) -> Host:
    """The same night, with what an intruder did beside the packages."""
    for path in SWALLOWED:
        host.old.file(path, ONE)
        host.new.file(path, b"EVIL")
    host.packages.append(Package("apt", "2", {}))
    return host


def foreign(version: str, before: bytes) -> Host:
    """A foreign package with files in places from which something is started."""
    host = Host()
    host.packages.append(Package("zz-tool", version, dict.fromkeys(AUTOSTART, TWO)))
    for path in AUTOSTART:
        if before:
            host.old.file(path, before)
        host.new.file(path, TWO)
    name = INFO + b"zz-tool.list"
    if before:
        host.old.file(name, ONE)
    host.new.file(name, TWO)
    return host


class SilencedTest(mail.MailTest):
    def counts(self, host: Host) -> dict[str, int]:
        """The counts in the state of a comparison of two nights."""
        host.write(self)
        self.call(TOOL, "-q", "--state", "state", "host-old.db", "host-new.db")
        return {name: int(count) for name, count in self.state().items() if count.isdigit()}

    def raises(self, label: str, host: Host, *limits: str) -> None:
        """Two nights raise an alarm: a critical one by the check, with these limits, and a mail."""
        self.counts(host)
        answer = self.call(NAGIOS, "--state", "state", *limits)
        self.assertEqual(answer.status, 2, (f"the check of {label}", answer))
        mail.call(self, "host-old.db", "host-new.db")
        self.assertIsNotNone(mail.sent(self), f"a mail of {label}")

    def first_lines(self, host: Host) -> list[str]:
        """What people read at once."""
        return host.brief(self).split("\n")[:LISTED_FIRST]

    def names_all(self, label: str, host: Host, paths: tuple[bytes, ...]) -> None:
        """The first lines name these paths, as open changes of severity high."""
        text = "\n".join(self.first_lines(host))
        high = text.partition("Open, severity high:\n")[2].partition("\nOpen, ")[0]
        for path in paths:
            self.assertIn(f"  {path.decode()}:", high, (label, text))

    def test_directories(self) -> None:
        """A directory that is given away, or that others may write, was of severity low."""
        rows: dict[bytes, dict[str, Any]] = {
            b"/etc": {"uid": 1000},
            b"/usr/bin": {"perm": "40775", "gid": 1000},
            b"/usr/sbin": {"perm": "41777"},
            b"/usr/lib": {"acl": acl_of(MORE_ACL)},
        }
        host = Host()
        for path, more in rows.items():
            host.old.directory(path)
            host.new.directory(path, **more)
        self.names_all("directories", host, tuple(rows))
        self.raises("directories", host, "--warning", "medium", "--critical", "high")

    def test_swallowed(self) -> None:
        """Scripts of dpkg and what they make, changed on a night of upgrades, were only counted:
        the first lines of a large upgrade differed in numbers alone."""
        quiet = self.first_lines(upgrade_night(35))
        host = with_marks(upgrade_night(35))
        self.names_all("a large upgrade", host, SWALLOWED)
        self.assertEqual(self.counts(host)["open_high"], len(SWALLOWED))
        told = set(self.first_lines(host)) - set(quiet)
        self.assertGreater(len(told), len(SWALLOWED), told)

    def test_foreign_package(self) -> None:
        """A package of anybody vouched for all of its files, and in its second version for each of
        them. A new one is named first."""
        for version, before in (("1", b""), ("2", ONE)):
            host = foreign(version, before)
            counts = self.counts(host)
            self.assertEqual((counts["same"], counts["trusted"]), (0, 0), version)
            high = counts["recorded_high"] + counts["open_high"]
            self.assertEqual(high, len(AUTOSTART), f"{version} is as severe as its files")
            self.raises(version, host, "--critical", "high")
            line = f"  zz-tool {version}: {len(AUTOSTART)} files"
            line += f", {len(AUTOSTART)} of severity high"
            lines = self.first_lines(host)
            self.assertIn(line, lines)
            self.assertEqual("New packages: zz-tool" in lines, not before, lines)

    def test_weak_digests(self) -> None:
        """A file of a weak digest only, equal, was "the same content" when its package changed."""
        host = Host()
        columns = tuple(column for column in host.old.columns if column != "sha256")
        host.old.columns = host.new.columns = columns
        host.old.file(b"/usr/bin/x", ONE, mode=0o100755)
        host.new.file(b"/usr/bin/x", ONE, mode=0o100755, mtime=time_of(2000))
        self.assertEqual(self.counts(host)["open_high"], 1, "a weak digest silences nothing")
        self.raises("a weak digest", host)
        self.names_all("a weak digest", host, (b"/usr/bin/x",))

    def test_hidden_package(self) -> None:
        """Of many packages of one night, a foreign one was not named, nor were its files."""
        host = Host()
        packages = {
            f"n{number:02}": [b"/usr/share/n%02d/%d" % (number, at) for at in range(3)]
            for number in range(46)
        }
        packages["zz-tool"] = [b"/etc/apt/apt.conf.d/99zz", b"/usr/share/polkit-1/rules.d/zz.rules"]
        for name, paths in packages.items():
            host.packages.append(Package(name, "1", dict.fromkeys(paths, TWO)))
            for path in (*paths, INFO + name.encode() + b".list"):
                host.new.file(path, TWO)
        lines = self.first_lines(host)
        named = " ".join(lines[: lines.index("")])
        self.assertIn(", zz-tool", named, ("it is named with the new ones", lines))
        line = "  zz-tool 1: 2 files, 2 of severity high"
        self.assertEqual(lines[lines.index(RECORDED) + 1], line, "it is the first group")
        self.raises("many packages", host, "--critical", "high")

    def test_compiled(self) -> None:
        """Compiled Python that does not do what its source says was "made again, the same"."""
        directory = b"/usr/lib/python3/dist-packages/policy/"
        source, compiled = directory + b"check.py", directory + b"__pycache__/check.cpython-311.pyc"
        for now, named in ((TWO, b"policy 2"), (ONE, b"changed  " + compiled)):
            host = Host()
            host.old.file(source, ONE).file(compiled, ONE)
            host.new.file(source, now).file(compiled, b"\xce and not N")
            host.packages.append(Package("policy", "2", {source: now}))
            self.assertEqual(self.counts(host)["open"], 1, named)
            self.raises("compiled Python", host, "--critical", "1")
            self.assertIn(f"  {named.decode()}: ", "\n".join(self.first_lines(host)))
