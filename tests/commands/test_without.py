"""What --exclude-from and --exclude leave out: what is told all the same, what is said, the status,
and who may write the file."""
from __future__ import annotations

import json
import os

from tests.lib.answer import Answer
from tests.lib.scratch import read

from aide_compare.hosts.store import CAUSE, ERRORS, LINES, LOCK, NEW_FILE

from . import mail
from . import test_standings as standings
from .sandbox import CommandTest, END, HEAD, sha256

JSON = "aide-compare json"
LOGS = b"# Logs\n\n  /var/log/**  \n/etc/*.bak\n"


def files(sizes: dict[bytes, int]) -> bytes:
    return HEAD + b"".join(b"%s 36 100644 %d\n" % pair for pair in sizes.items()) + END


LOG, SPACE, GONE = b"/var/log", b"/var/log/x%20y", b"/var/log/z"
OLD = files({b"/etc/a": 1, LOG: 1, SPACE: 1, GONE: 1})
NEW = files({b"/etc/a": 2, b"/etc/a.bak": 1, LOG: 1, SPACE: 2})

# What an entry gives: its mode, owner and capabilities, and whether it is told under a line, and
# under one that means programs too.
RIGHTS = [
    ("a file", b"100644", 0, b"0", False, False),
    ("a file that all can write", b"100666", 0, b"0", False, False),
    ("a directory, with a set-group-ID bit", b"42755", 0, b"0", False, False),
    ("a directory of another user", b"40755", 1000, b"0", False, False),
    ("a link", b"120777", 0, b"0", False, False),
    ("a link to a file with capabilities", b"120777", 0, b"AAA=", False, False),
    ("a device that nobody may open", b"20000", 0, b"0", False, False),
    ("a program", b"100755", 0, b"0", True, False),
    ("a program of one user", b"100100", 0, b"0", True, False),
    ("a program of a group", b"100654", 0, b"0", True, False),
    ("a program of all others", b"100645", 0, b"0", True, False),
    ("a set-user-ID file", b"104755", 0, b"0", True, True),
    ("a set-group-ID file that nobody may execute", b"102644", 0, b"0", True, True),
    ("a FIFO with a set-user-ID bit", b"14644", 0, b"0", True, True),
    ("a directory with a set-user-ID bit", b"44755", 0, b"0", True, True),
    ("a directory that its group can write", b"40775", 0, b"0", True, True),
    ("a directory that all can write", b"40757", 0, b"0", True, True),
    ("a directory that all can write, with a sticky bit", b"41777", 0, b"0", True, True),
    ("a file with capabilities", b"100644", 0, b"AAA=", True, True),
    ("a device", b"60600", 0, b"0", True, True),
    ("a device of characters", b"20001", 0, b"0", True, True),
    ("a device of another user, who can open it to himself", b"60000", 1000, b"0", True, True),
    ("no mode", b"0", 0, b"0", True, True),
    ("a mode without a type", b"644", 0, b"0", True, True),
]

MEASURED = b"@@begin_db\n@@db_spec name attr perm uid size capabilities\n"

# What the shipped list leaves out: logs, locks of Postfix, and what programs note below /run.
HIDDEN = """
    /var/log/syslog /var/log/apt/history.log /var/log/journal/a/system.journal
    /var/lib/logrotate/status /var/lib/apt/daily_lock /var/lib/systemd/timers/stamp-man-db.timer
    /var/spool/dma /var/spool/dma/flush /run/lock/x/y /run/x.lock /run/motd.dynamic /run/x.reboot
    /var/lib/aide/aide.db /var/lib/aide-compare/daily/state /var/lib/apt/periodic/update-stamp
    /var/cache/man/index.db /var/cache/man/pt_BR/index.db /var/cache/apt/pkgcache.bin
    /var/cache/ldconfig/aux-cache /var/cache/fontconfig/3830d5c3ddfd-le64.cache-8
    /var/backups/dpkg.status.0 /var/backups/dpkg.status.1.gz /var/backups/alternatives.tar.6.gz
    /var/backups/apt.extended_states.0 /run/adduser /root/.bash_history /root/.lesshst
    /home/anna/.bash_history /home/anna/.viminfo /home/anna/.sudo_as_admin_successful /run/crond.pid
    /run/exim4/exim.pid /run/agetty.reload /run/sudo /run/sudo/ts /run/systemd/sessions/1
    /run/systemd/journal/kernel-seqnum /run/udev/data/b8:0 /run/host/inaccessible/blk
    /run/systemd/inaccessible/chr /var/spool/postfix/pid/unix.bounce
    /var/spool/postfix/pid/inet.smtp /run/reboot-required /run/reboot-required.pkgs
    /var/cache/apt/pkgcache.bin.hSWiF9 /var/cache/apt/srcpkgcache.bin.0aZ9bY /run/sshd
    /run/systemd/propagate/man-db.service /run/ubuntu-advantage/notices /dev/cdrom /dev/dvd /dev/rtc
    /dev/disk/by-uuid/3255683f /dev/shm/x /dev/char/1:3 /var/cache/man/cat8/CACHEDIR.TAG
    /var/lib/command-not-found/commands.db /var/lib/command-not-found/commands.db.metadata
    /var/cache/swcatalog/cache/C-os-catalog.xb /run/ubuntu-advantage/apt-news
    /run/cloud-init/ds-identify.log /run/user/1000/snapd-session-agent.socket
    /run/user/0/systemd/propagate/.os-release-stage
    /run/user/0/systemd/propagate/.os-release-stage/os-release
"""
# Accounts, keys, programs, settings of aide-compare, what apt runs as root or a program loads from
# /var/cache, what is in homes there, and what something below /run obeys.
SEEN = """
    /etc/passwd /etc/cron.d/x /usr/bin/ls /var/lib/dpkg/status /var/spool/cron/crontabs/root
    /root/.ssh/authorized_keys /var/lib/aide-compare /boot/vmlinuz /etc/aide-compare/without
    /etc/aide-compare/defaults /var/lib/exim4/config.autogenerated /run/docker.sock /var/log
    /run/systemd/system/x.service /run/systemd/system/ssh.service.d/x.conf
    /run/systemd/system/multi-user.target.wants/x.service /run/systemd/user/x.service
    /run/systemd/generator/x.service /run/systemd/transient/x.service /run/systemd/system.control/x
    /run/systemd/system-generators/x /run/udev/rules.d/x.rules /run/tmpfiles.d/x.conf
    /run/modprobe.d/x.conf /run/modules-load.d/x.conf /run/sysctl.d/x.conf
    /run/user/1000/systemd/user/x.service /run/sudo/x /run/resolvconf/resolv.conf /run/systemd
    /var/cache/apt/archives/openssl_3.0.17-1_amd64.deb /var/cache/apt/archives
    /var/cache/apparmor/26b63962.0/usr.sbin.tcpdump /var/cache/bind/db.example /var/cache/z.sh
    /var/cache/dictionaries-common/emacsen-ispell-default.el /var/cache/debconf/config.dat
    /var/cache/apt/archives/x/Packages /run/polkit-1/rules.d/x.rules /var/cache/man/.forward
    /var/cache/man/.ssh/authorized_keys /var/cache/man/de/.x/index.db /var/cache/man/de/x
    /run/sudo/ts/x /var/spool/dma/x /var/backups/.forward /var/backups/shadow.bak
    /var/backups/.ssh/authorized_keys /var/lib/aide-compare/hosts/www/aide.db
    /var/lib/aide-compare/daily /var/cache/apt/pkgcache.bin.x /run/reboot-required.d/x
    /var/spool/postfix/pid /var/spool/postfix/pid/x /var/spool/postfix/private/bounce /var/log/.x
    /var/log/apt/.x/y /dev/shm/.x /run/.x.pid /run/user/0/gnupg/.x /root/.bashrc /root/.profile
    /root/.vimrc /root/.lesskey /home/anna/.ssh/rc /home/anna/x/.bash_history
    /home/anna/.bash_logout /run/sshd/x /run/systemd/propagate/x/y /dev/fd /dev/stdin /dev/log
    /dev/core /dev/x /dev /var/cache/man/CACHEDIR.TAG /var/lib/apt/lists/lock
    /var/lib/apt/lists /var/lib/apt/lists/partial /var/lib/apt/lists/partial/x_InRelease
    /var/lib/apt/lists/deb.debian.org_debian_dists_sid_InRelease /var/lib/apt/extended_states
    /var/lib/dpkg/info/x.list /run/cloud-init/x
    /var/lib/command-not-found /var/lib/command-not-found/x /var/cache/swcatalog/cache/x.xb
    /var/lib/update-notifier/updates-available /var/lib/landscape/landscape-sysinfo.cache
    /var/lib/ubuntu-advantage/apt-esm/etc/apt/apt.conf.d/x /run/ubuntu-advantage/apt-news/x
    /run/user/1000/systemd/generator.late/x.service /run/user/0/systemd/propagate/.x
"""
# The same of a list for a collector.
KEPT_OF_HOSTS = """
    /var/lib/aide-compare/hosts/www/%s /var/lib/aide-compare/states/www
    /var/lib/aide-compare/canary /var/lib/aide-compare/report.quiet
"""
BASELINES = """
    /var/lib/aide-compare/hosts/www/aide.db /var/lib/aide-compare/hosts/www/aide.db.previous
    /var/lib/aide-compare/hosts /var/lib/aide-compare/hosts/www /etc/aide-compare/hosts
    /var/lib/aide-compare/hosts/www/x /var/lib/aide-compare/states
"""


class WithoutTest(CommandTest):
    def setUp(self) -> None:
        super().setUp()
        for name, text in (("o.db", OLD), ("n.db", NEW), ("empty.db", HEAD + END)):
            self.write(name, text)

    def standings(self, answer: Answer) -> dict[bytes, str]:
        """The standing of each change in lines of JSON."""
        found = {}
        for line in answer.output.splitlines()[1:-1]:
            fields = json.loads(line)
            found[fields["path"].encode()] = fields["standing"]
        return found

    def open_in(self, answer: Answer) -> list[bytes]:
        """The paths of the changes that are open. All others are left out."""
        standings = self.standings(answer)
        self.assertLessEqual(set(standings.values()), {"open", "left out"}, answer)
        return [path for path, standing in standings.items() if standing == "open"]

    def seen(self, text: bytes, *words: str) -> list[bytes]:
        """The paths of a database that are told as added although these words leave out some."""
        self.write("full.db", text)
        return self.open_in(self.call(JSON, *words, "empty.db", "full.db"))

    def test_left_out(self) -> None:
        self.write("logs", LOGS)
        words = ["--exclude-from", "logs", "o.db", "n.db"]
        answer = self.call("aide-compare", "-v", "--state", "state", *words)
        said = [
            b"left out by /var/log/** (logs, line 3): 2 changes\n",
            b"left out by /etc/*.bak (logs, line 4): 1 change\n",
        ]
        output = [b"1 open of 4 changes\n", b"\nSilent: left out: 3 of 4 changes\n"]
        self.expect("logs are left out", answer, 4, output, said)
        state = self.state()
        want = {"left_out": "3", "open": "1", "status": "7", "told_status": "4"}
        want.update(added="1", removed="1", changed="2")
        want.update(old_sha256=sha256(OLD), new_sha256=sha256(NEW))
        self.assertEqual({**state, **want}, state, "the counts are those of all changes")
        answer = self.call("aide-compare", *words)
        self.assertNotIn(b"left out", answer.errors, "without -v")

    def test_said_once(self) -> None:
        """Each output says once how many changes are left out."""
        words = ["--exclude", "/var/log/**", "o.db", "n.db"]
        said = b"left out: 2 of 4 changes"
        self.assertEqual(self.call("aide-compare", *words).output.count(said), 1)
        answer = self.call(JSON, "--state", "state", *words)
        self.assertEqual(json.loads(answer.output.splitlines()[-1])["left_out"], 2)
        answer = self.call("aide-compare", "--only", "/etc/a", *words)
        self.assertEqual(answer.errors.count(said), 1, answer)
        self.assertEqual(self.call("aide-compare status", "--state", "state").output.count(said), 1)
        self.assertIn(said, self.call("check_aide_compare", "--state", "state").output)
        mail.prepare(self)
        mail.call(self, *words)
        self.assertEqual(mail.body(mail.sent(self)).lower().count(said), 1)
        page = self.call("aide-compare page", *words).output
        self.assertEqual(page.lower().count(said), 1, "as long as no script has run")
        self.assertIn(b'["left out",2]', page)
        self.assertIn(b'"is_whole":true', page, "then buttons have it")
        self.write("same.db", self.read("o.db"))
        answer = self.call("aide-compare", "--exclude", "/var/log/**", "o.db", "same.db")
        self.expect("nothing differs", answer, 0, b"no differences in 4 entries\n")
        self.assertNotIn(b"left out", answer.errors)

    def test_status(self) -> None:
        """The status is that of what is not silent; a report has AIDE's, and says that it does not
        use the list."""
        every = ["--exclude", "/**", "o.db", "n.db"]
        self.answered(0, b"4 changes, all silent\n", None, "aide-compare", *every)
        for tool in ("aide-compare --report", "aide-compare --report --state state"):
            answer = self.call(tool, *every)
            counts = [b"Added entries:           1", b"Changed entries:         2"]
            self.expect(tool, answer, 7, counts, b"the report does not use the list")
        gauges = [b"\naide_compare_status 0\n", b"\naide_compare_left_out_changes 4\n"]
        metrics = "aide-compare status --format prometheus --state state"
        self.expect("metrics", self.call(metrics), 0, gauges, b"")
        self.assertEqual(self.call("aide-compare --report -q", *every).status, 7)
        answer = self.call("aide-compare --report", "o.db", "n.db")
        self.assertNotIn(b"use the list", answer.errors)

    def test_trusted_first(self) -> None:
        """A line of the list is asked only of what no trusted pair accounts for."""
        standings.prepare(self)
        for name in ("o.db", "n.db"):
            self.write("trusted-" + name, self.read(name))
        words = ["--exclude", "/**", "--trusted", "trusted-o.db", "trusted-n.db", "o.db", "n.db"]
        answer = self.call(JSON, *words)
        self.assertEqual(set(self.standings(answer).values()), {"same", "trusted"}, answer)
        self.assertEqual(answer.status, 0)

    def test_rights(self) -> None:
        """What gives rights is always told, and what has no mode, or is of a database without."""
        lines = [
            b"/a/%02d 44 %s %d 1 %s\n" % (number, *row[1:4]) for number, row in enumerate(RIGHTS)
        ]
        self.write("full.db", MEASURED + b"".join(lines) + END)
        self.write("none.db", MEASURED + END)
        self.write("marked", b"programs( a reason ) /a/**\n")
        for column, words in ((4, ["--exclude", "/a/**"]), (5, ["--exclude-from", "marked"])):
            for databases in (["none.db", "full.db"], ["full.db", "none.db"]):
                seen = self.open_in(self.call(JSON, *words, *databases))
                for number, row in enumerate(RIGHTS):
                    is_told = bool(row[column])
                    if databases[0] == "full.db" and row[0].startswith("a directory that"):
                        is_told = False  # Nobody can write it any more.
                    self.assertEqual(b"/a/%02d" % number in seen, is_told, (row[0], words))
        text = b"@@begin_db\n@@db_spec name size\n/a/x 1\n" + END
        self.assertEqual(self.seen(text, "--exclude", "/a/**"), [b"/a/x"], "no modes")

    def test_refused(self) -> None:
        """A fault names the file and the line, or the option."""
        self.write("good", b"# a comment\n/a\n")
        self.write("bad", b"/a\n/b**\n")
        self.write("latin", b"/a\n/\xe4\n")
        self.write("nul", b"/a\n/b\0c\n")
        self.write("large", b"# comment\n" * 13200)
        self.write("many", b"/a\n" * 501)
        self.write("open", b"/a\n", 0o666)
        os.symlink("open", self.path("link"))
        double = b": ** is a component of its own: /b**\n"
        for words, status, said in (
            (["--exclude-from", "none"], 18, b"none"),
            (["--exclude-from", "bin"], 18, b"bin"),
            (["--exclude-from", ""], 15, b""),
            (["--exclude-from", "link"], 18, b"other users can write the file"),
            (["-c", "link"], 18, b"other users can write the configuration"),
            (["--exclude", "var\x1b"], 17, b"--exclude: a path begins with /: var\\033"),
            (["--exclude", "/a\n/**"], 15, b"--exclude has more than one line: /a\\012/**"),
            (["--exclude-from", "bad"], 17, b"bad, line 2" + double),
            (["--exclude-from", "good", "--exclude-from", "bad"], 17, b"bad, line 2" + double),
            (["--exclude-from", "good", "--exclude", "/b**"], 17, b"--exclude" + double),
            (["--exclude-from", "latin"], 17, b"latin, line 2: it is not in UTF-8"),
            (["--exclude-from", "nul"], 17, b"nul, line 2: "),
            (["--exclude-from", "large"], 17, b"have more than 131061 bytes"),
            (["--exclude-from", "many"], 17, b"many, line 501: too many rules"),
        ):
            answer = self.call(JSON, *words, "o.db", "n.db")
            self.expect("%s" % words, answer, status, b"", [said])
            self.assertNotIn(b"aide: list:", answer.errors, "the line of the program")
        self.write("almost", b"# comment\n" * 13100)
        self.expect("a large list", self.call(JSON, "--exclude-from", "almost", "o.db", "n.db"), 7)

    def test_shipped(self) -> None:
        """The shipped files are read. What programs write each night is left out, and nothing that
        anything runs or obeys; of a collector no baseline."""
        names = (NEW_FILE, LINES, ERRORS, CAUSE, LOCK)
        kept = "".join(KEPT_OF_HOSTS % name for name in names)
        for name, *texts in (
            ("aide/debian.without", HIDDEN, SEEN),
            ("fleet/collector.without", kept, BASELINES),
        ):
            hidden, seen = (set(text.encode().split()) for text in texts)
            paths = sorted(hidden | seen, key=lambda path: path.split(b"/"))
            text = files(dict.fromkeys(paths, 1))
            self.write("list", read(f"contrib/{name}"))
            self.assertEqual(set(self.seen(text, "--exclude-from", "list")), seen)

    def test_member(self) -> None:
        """A directory whose links changed names the directory that came or went there, though the
        change of that is left out."""
        head = b"@@begin_db\n@@db_spec name attr perm uid gid lcount\n"
        line = b"%s 2076 40755 0 0 %d\n"
        logs = ((b"/opt", 3, 4), (b"/opt/x", 2, 3), (b"/var/log", 9, 10), (b"/var/log/apt", 2, 2))
        old = [line % (path, before) for path, before, _ in logs]
        new = [line % (path, after) for path, _, after in logs]
        old.insert(2, line % (b"/srv", 3))
        new.insert(2, line % (b"/srv", 2))
        old.insert(3, line % (b"/srv/gone", 2))
        new.insert(3, line % (b"/srv2", 2))
        new.append(line % (b"/var/log/my%20sql\\", 2))
        new.append(line % (b"/var/log/z", 2))
        self.write("1.db", head + b"".join(old) + END)
        self.write("2.db", head + b"".join(new) + END)
        words = ("--exclude", "/var/log/**", "--exclude", "/srv/**", "1.db", "2.db")
        text = self.call("aide-compare", *words).output_text
        for want in (
            "changed  /var/log: links 9 -> 10, added my sql\\134 (left out)\n",
            "changed  /srv: links 3 -> 2, removed gone (left out)\n",
            "changed  /opt: links 3 -> 4\n",
        ):
            self.assertIn(want, text)
        mail.prepare(self)
        mail.call(self, *words)
        self.assertIn(b"/srv: links 3 -> 2, removed gone (left out)", mail.body(mail.sent(self)))
