"""A comparison beside a trusted pair: what is silent, where that is told, what is refused."""
from __future__ import annotations

import gzip
import os

from tests.commands import mail
from tests.commands.made_up import Host, standings_of, time_of
from tests.commands.units.calls import misused
from tests.commands.sandbox import CommandTest, NOBODY, sha256
from tests.commands.viewers.pages import heads_in

TOOL = "aide-compare"
TOOLS = (TOOL, TOOL + " json", TOOL + " page")
ONE, TWO, EVIL = b"one", b"two, of the upgraded package", b"EVIL"
PAIR = ("--trusted", "canary-old.db", "canary-new.db")
BOTH = ("host-old.db", "host-new.db")
WANTED = {
    b"/usr/bin/upgraded": "trusted",
    b"/usr/bin/came": "trusted",
    b"/usr/bin/went": "trusted",
    b"/usr/bin/same": "same",
    b"/usr/bin/evil": "open high",
    b"/usr/bin/mine": "open high",
    b"/usr/bin/lost": "open high",
}
WATCHERS = (
    *(b"/etc/aide-compare", b"/etc/aide-compare/without", b"/etc/aide-compare/x/y"),
    *(b"/etc/aide.conf", b"/etc/aide/aide.conf", b"/etc/aide/aide.conf.d/99_x"),
    *(b"/etc/default/aide", b"/etc/cron.daily/zz-aide-compare", b"/etc/cron.d/aide-compare-fleet"),
    b"/etc/systemd/system/aide-compare.service.d/signed.conf",
    b"/etc/systemd/system/timers.target.wants/aide-compare.timer",
    *(b"/run/systemd/system/aide-.service.d/x.conf", b"/run/systemd/transient/service.d/x.conf"),
    # A link there would lead to other files.
    *(b"/etc/systemd/system/service.d", b"/run/systemd/system/timer.d"),
    *(b"/usr/lib/systemd/system/aide-compare.timer", b"/usr/lib/systemd/system/timer.d/x.conf"),
    b"/usr/local/lib/systemd/system/aide-compare.service",
    *(b"/usr/lib/systemd/system/dailyaidecheck.service", b"/usr/share/aide-compare/severity.conf"),
    b"/etc/systemd/system/dailyaidecheck.timer.d/x.conf",
    b"/usr/local/share/aide-compare/severity.conf",
)
NO_WATCHERS = (
    *(b"/etc/aide-comparer", b"/etc/aider/x", b"/etc/systemd/system/ssh.service.d/x.conf"),
    *(b"/etc/systemd/system/ssh.service.d", b"/etc/systemd/system/service.dx"),
    *(b"/srv/aide.conf", b"/usr/lib/systemd/system/raide-compare.service", b"/etc/cron.daily/aide"),
)
TOLD = b"aide-compare: 3 open (3 high) of 7 changes\n"
COUNTS = {"same": "1", "trusted": "3", "recorded": "0", "open": "3", "open_high": "3"}


def upgraded(with_marks: bool = True) -> tuple[Host, Host]:
    """A host and a canary that got the same upgrade; somebody was at work on the host."""
    host, canary = Host(), Host()
    for each, shift in ((host, 0), (canary, 500)):
        each.both(lambda night: night.directory(b"/usr/bin"))
        for name in (b"upgraded", b"went", b"same"):
            each.old.file(b"/usr/bin/" + name, ONE, 0o100755, mtime=time_of(1000 + shift))
        more = {"mtime": time_of(2000 + shift), "inode": 7 + shift}
        for name in (b"upgraded", b"came"):
            each.new.file(b"/usr/bin/" + name, TWO, 0o100755, **more)
    host.new.file(b"/usr/bin/same", ONE, 0o100755, mtime=time_of(2000))
    canary.new.file(b"/usr/bin/same", ONE, 0o100755)
    if with_marks:
        host.old.file(b"/usr/bin/evil", ONE, 0o100755).file(b"/usr/bin/lost", ONE, 0o100755)
        host.new.file(b"/usr/bin/evil", EVIL, 0o100755).file(b"/usr/bin/mine", EVIL, 0o100755)
        canary.old.file(b"/usr/bin/evil", ONE, 0o100755).file(b"/usr/bin/lost", ONE, 0o100755)
        canary.new.file(b"/usr/bin/evil", TWO, 0o100755).file(b"/usr/bin/lost", ONE, 0o100755)
    return host, canary


def put(sandbox: CommandTest, with_marks: bool = True) -> tuple[Host, Host]:
    host, canary = upgraded(with_marks)
    host.write(sandbox)
    sandbox.write("canary-old.db", canary.old.database())
    sandbox.write("canary-new.db", canary.new.database())
    return host, canary


class TrustedTest(mail.MailTest):
    def test_standings(self) -> None:
        """Changes that the canary has too are silent, all others are not."""
        host, _ = put(self)
        answer, objects = host.ask(self, *PAIR)
        self.assertEqual(answer.status, 7, answer)
        found = standings_of(objects)
        self.assertEqual({path: found.get(path) for path in WANTED}, WANTED)
        self.assertEqual(self.leftovers(), [])
        for side, name in zip(("trusted_old", "trusted_new"), PAIR[1:]):
            wanted = {"sha256": sha256(self.read(name)), "skipped": []}
            self.assertEqual(objects[0].get(side), name, f"the first line has {side}")
            self.assertEqual(objects[-1].get(side), wanted, f"the last line has {side}")
        found = standings_of(host.ask(self)[1])
        opened = {path for path in WANTED if found[path].startswith("open")}
        self.assertEqual(opened, WANTED.keys() - {b"/usr/bin/same"}, "without the pair")
        _, objects = host.ask(self, "--trusted", "canary-new.db", "canary-new.db")
        found = standings_of(objects)
        for path in (b"went", b"upgraded", b"came"):
            self.assertEqual(found[b"/usr/bin/" + path], "open high", "nothing changed in the pair")

    def test_watchers(self) -> None:
        """What decides on what is reported is open, though the canary has the same change: in the
        lines, in the brief, and if only silent changes are accepted."""
        host, canary = put(self, with_marks=False)
        for each in (host, canary):
            for path in (*WATCHERS, *NO_WATCHERS):
                each.old.file(path, ONE)
                each.new.file(path, TWO)
        host.write(self)
        self.write("canary-old.db", canary.old.database())
        self.write("canary-new.db", canary.new.database())
        _, objects = host.ask(self, *PAIR)
        found = standings_of(objects, ("standing",))
        wanted = {**dict.fromkeys(WATCHERS, "open"), **dict.fromkeys(NO_WATCHERS, "trusted")}
        self.assertEqual({path: found.get(path) for path in wanted}, wanted)
        self.assertEqual(objects[-1]["standings"]["open"], len(WATCHERS))
        heads = heads_in(self.call("aide-compare page", *PAIR, *BOTH).output)
        self.assertEqual(sum(head["standing"] == "open" for head in heads), len(WATCHERS))

    def test_forms(self) -> None:
        """The pair may be packed, or come by a descriptor, before or after the databases. A column
        that the program does not know changes nothing."""
        put(self)
        new = self.read("canary-new.db")
        self.write("odd.db", new.replace(b" selinux ", b" fstype "))
        for side in ("old", "new"):
            self.write(f"canary-{side}.db.gz", gzip.compress(self.read(f"canary-{side}.db")))
        rows: list[tuple[tuple[str, ...], bytes | None]] = [
            (("canary-old.db.gz", "canary-new.db.gz", *BOTH), None),
            (("canary-old.db", "canary-new.db.gz", *BOTH), None),
            (("canary-old.db", "odd.db", *BOTH), None),
            (("canary-old.db", "-", *BOTH), new),
        ]
        for words, text in rows:
            answer = self.call(TOOL, "--trusted", *words, text=text)
            self.expect(f"a pair {words}", answer, 7, errors=[TOLD])
        self.expect("a pair after the databases", self.call(TOOL, *BOTH, *PAIR), 7, errors=[TOLD])
        report = self.call(TOOL, "--report", *BOTH).output
        answer = self.call(TOOL, "--report", *PAIR, *BOTH)
        self.expect("AIDE's report knows no pair", answer, 7, output=[report])

    def test_unreadable(self) -> None:
        """A pair that cannot be read ends the comparison: nothing is compared with half of it."""
        put(self)
        sound = self.read("canary-new.db")
        named = b"the trusted new database"
        rows: list[tuple[str, bytes | None, int, bytes]] = [
            ("missing", None, 18, b"cannot open %s canary-new.db: No such file" % named),
            ("empty", b"", 24, named + b" is canary-new.db"),
            ("cut", sound[:-10], 24, named + b" is canary-new.db"),
            ("of another order", b"\n".join(reversed(sound.split(b"\n"))), 24, b"canary-new.db"),
            ("cut and packed", gzip.compress(sound)[:-10], 18, named + b" canary-new.db"),
        ]
        for label, text, status, words in rows:
            os.remove(self.path("canary-new.db"))
            if text is not None:
                self.write("canary-new.db", text)
            for tool in TOOLS[: 3 if text is None else 1]:
                answer = self.call(tool, *PAIR, *BOTH)
                self.expect(f"{tool}, a pair that is {label}", answer, status, b"", [words])
            self.write("canary-new.db", sound)
        answer = self.call(TOOL, "--max-size", "500", *PAIR, *BOTH)
        self.expect("it is too large", answer, 18, b"", [b"more than 500 bytes"])
        os.remove(self.path("canary-new.db"))
        os.symlink("/dev/zero", self.path("canary-new.db"))
        self.expect("a device", self.call(TOOL, *PAIR, *BOTH), 18, b"")

    def test_refused(self) -> None:
        for words in (
            (TOOL, *BOTH, "--trusted", "canary-old.db"),
            (TOOL, *PAIR, *PAIR, *BOTH),
            (TOOL, "--trusted", "canary-old.db", "-", "-", "host-new.db"),
            (TOOL + " json", *PAIR, "lines"),
        ):
            self.assertEqual(misused(self, *words)[0], 15, words)

    def test_texts(self) -> None:
        """The state and standard error name the pair, escaped."""
        put(self)
        name = "can\x1b[31mary\n.db"
        self.write(name, self.read("canary-new.db"))
        words = ("--state", "state", "--trusted", "canary-old.db", name, *BOTH)
        answer = self.call(TOOL, "-v", *words)
        digest = sha256(self.read(name))
        line = (
            rb"aide-compare: trusted new database: can\\033\[31mary\\012\.db, written .*, SHA-256 "
        )
        self.assertRegex(answer.errors, line + digest.encode())
        state = self.state()
        wanted = {**COUNTS, "trusted_old": "canary-old.db", "trusted_new_sha256": digest}
        wanted["trusted_new"] = r"can\033[31mary\012.db"
        self.assertEqual({**state, **wanted}, state)
        answer = self.call(TOOL, *PAIR, *BOTH)
        self.assertIn(b"\nSilent: 1 same, 3 trusted\n", answer.output)
        page = self.call(TOOL + " page", *PAIR, *BOTH)
        self.expect("a page", page, 7, b'["trusted",3]')

    def test_mail(self) -> None:
        """No mail goes out if all that differs is silent; another one names the pair in its
        command, and so does a failure."""
        put(self, with_marks=False)
        self.expect("all is silent", mail.call(self, *PAIR, *BOTH), 0, b"")
        self.assertIsNone(mail.sent(self), "no mail")
        mail.call(self, *BOTH)
        self.assertIsNotNone(mail.sent(self), "without the pair")
        put(self)
        mail.call(self, *PAIR, *BOTH)
        message = mail.sent(self)
        self.assertRegex(mail.subject(message), r"3 open \(3 high\) of 7 changes\Z")
        self.assertIn(b"\nSilent: 1 same, 3 trusted\n", mail.body(message))
        os.remove(self.path("canary-new.db"))
        self.assertEqual(mail.call(self, *PAIR, *BOTH).status, 18)
        self.assertIn(b"cannot open the trusted new database", mail.body(mail.sent(self)))

    def test_defaults(self) -> None:
        """The administrator may write the pair down once, for the databases of this machine."""
        put(self)
        names = map(self.path, BOTH)
        databases = "--databases {} {}\n".format(*names)
        for line, status, words in (
            ("--trusted canary-old.db canary-new.db", 7, TOLD),
            ("--trusted=canary-old.db  canary-new.db", 7, TOLD),
            ("--trusted canary-old.db", 15, b"--trusted: expected 2 arguments"),
            ("--trusted a b c", 15, b"defaults, line 2: unrecognized arguments: c"),
        ):
            self.write("etc/defaults", f"{databases}{line}\n")
            self.expect(f"a default {line}", self.call(TOOL, *BOTH), status, errors=[words])
        told = b"aide-compare: 6 open (6 high) of 7 changes\n"
        self.expect("no defaults", self.call(TOOL, "--no-defaults", *BOTH), 7, errors=[told])

    def test_owner(self) -> None:
        """Root opens the pair, and compares with the rights of the user in whose directory the
        baseline is."""
        self.needs_root()
        put(self)
        os.makedirs(self.path("his"), exist_ok=True)
        for name in BOTH:
            os.replace(self.path(name), self.path("his/" + name))
            os.chown(self.path("his/" + name), NOBODY, NOBODY)
        os.chown(self.path("his"), NOBODY, NOBODY)
        for name in PAIR[1:]:
            os.chmod(self.path(name), 0o600)
        answer = self.call(TOOL, *PAIR, *(f"his/{name}" for name in BOTH))
        self.expect("a pair that only root may read", answer, 7, errors=[TOLD])
