"""After a night of signed upgrades the timer, cron, a command by hand, accept, the page, status and
the check have the same counts, by the administrator's defaults."""
from __future__ import annotations

import json
import os
import shlex
import shutil

from tests.lib.scratch import read
from tests.commands import mail
from tests.commands.signed_archive import HOME, TOOL, ArchiveCase, keep_as_apt
from tests.commands.viewers.pages import data_in

PAIR = ("base/aide.db", "base/aide.db.new")
# What setup writes, and what an administrator may have beside it.
DEFAULTS = """\
--max-age 50h
--weekly Mon
--to a@b.example
--state /var/lib/aide-compare/daily/state
--trusted /var/lib/aide-compare/daily/signed.db.old /var/lib/aide-compare/daily/signed.db
"""
LEFT_OUT = b"/var/log/of-the-night"


def started(path: str, name: str) -> list[str]:
    """The words of the command that the last such line of a unit starts, without the program."""
    lines = read(f"contrib/{path}").splitlines()
    *_, line = (line for line in lines if line.startswith(name + "="))
    return shlex.split(line.partition("=")[2])[1:]


class OneTruthTest(ArchiveCase):
    def setUp(self) -> None:
        super().setUp()
        mail.prepare(self)
        self.place.sign()
        keep_as_apt(self, self.place)
        self.place.new.file(LEFT_OUT, b"a log\n")
        self.write("etc/without", os.fsdecode(LEFT_OUT) + "\n")
        databases = " ".join(map(self.path, PAIR))
        self.write("etc/defaults", f"--databases {databases}\n{self.below(DEFAULTS)}")
        for path, night in zip(PAIR, (self.place.old, self.place.new)):
            self.write(path, night.database())

    def below(self, text: str) -> str:
        """A text with the paths of this test."""
        for name, place in HOME.items():
            text = text.replace(name, self.path(place))
        return text

    def make_pair(self) -> None:
        """What the timer does before it compares."""
        words = started("aide/signed.conf", "ExecStartPre")
        words = [self.below(word) for word in words]
        self.answered(0, b"", None, "aide-compare", *words, f"--keyring={self.path('keys.gpg')}")

    def counts(self) -> str:
        """The counts of the state that the last command has written, which is taken away."""
        state = self.state("base/state")
        os.remove(self.path("base/state"))
        return " ".join(state[name] for name in ("open", "recorded", "left_out", "trusted", "same"))

    def by_timer(self) -> None:
        words = [self.below(word) for word in started("systemd/aide-compare.service", "ExecStart")]
        self.answered(0, b"", b"", "aide-compare", *words)

    def by_cron(self) -> None:
        lines = read("contrib/cron/aide-compare.cron.daily").splitlines()
        line = next(line for line in lines if line.startswith("/usr/local/bin/aide-compare mail"))
        words = [word for word in shlex.split(line)[1:] if "user" not in word]
        self.answered(0, b"", b"", "aide-compare", *words)

    def accepted(self) -> None:
        """What accept shows on a terminal before it asks."""
        terminal = self.terminal("aide-compare accept")
        terminal.read(b"[y/N] ")
        terminal.type(b"n\n")
        self.assertEqual(terminal.end()[0], 24)

    def test_upgrade(self) -> None:
        self.make_pair()
        self.by_timer()
        counts = self.counts()
        self.assertRegex(counts, r"\A4 0 1 11 0\Z", "what is not signed")
        for ask in (
            self.by_cron,
            lambda: self.call("aide-compare"),
            lambda: self.call("aide-compare", *PAIR),
            lambda: self.call("aide-compare", "-q"),
            lambda: self.call("aide-compare mail", *map(self.path, PAIR)),
            self.accepted,
        ):
            ask()
            self.assertEqual(self.counts(), counts)
        words = self.call("aide-compare").output.split(b"\n")[0]
        self.assertRegex(words, rb"\A4 open of 16 changes\Z")
        wait = b"Mails: 1 mail that could not be sent yet: "
        self.answered(0, [words, wait], b"", "aide-compare status")
        self.answered(1, b"AIDE WARNING: " + words, b"", "check_aide_compare")
        for pair in ((), PAIR):
            lines = self.call("aide-compare json", *pair).output.splitlines()
            end = json.loads(lines[-1])["standings"]
            found = " ".join(
                str(end[name]) for name in ("open", "recorded", "left_out", "trusted", "same")
            )
            self.assertEqual(found, counts)
            page = data_in(self.call("aide-compare page", *pair).output)
            self.assertLessEqual(
                {"open": 4, "trusted": 11}.items(), dict(page["heading"]["counts"]).items()
            )
        self.assertIn(b"trusted changed ", self.call("aide-compare show", os.fsdecode(TOOL)).output)

    def test_without_archive(self) -> None:
        """If nothing can be made of the archive, all is told, by the job of cron too."""
        job = read("contrib/cron/aide-compare.cron.daily").replace("\\\n", "")
        job = job.replace("$directory", "/var/lib/aide-compare/daily").replace('"', "")
        words = started("aide/signed.conf", "ExecStartPre")[1:]
        self.assertIn(" ".join(words), " ".join(job.split()))
        pair = "/var/lib/aide-compare/daily/signed.db"
        for text in (job, read("contrib/aide/signed.conf")):
            end = r"(?: \|\| exit)?\n(?s:.*)aide-compare archive "
            self.assertRegex(text, f"rm -f {pair} {pair}.old{end}")
        self.make_pair()
        shutil.rmtree(self.path("lists"))
        self.refused(18, None, "aide-compare", *map(self.below, ("archive", *words)))
        self.by_timer()
        self.assertEqual(self.counts(), "15 0 1 0 0")

    def test_other_databases(self) -> None:
        """The trusted pair of this machine accounts for no change of another one, and the result is
        not that of this machine."""
        self.make_pair()
        for path in PAIR:
            shutil.copy(self.path(path), self.path(path + ".copied"))
        copied = [path + ".copied" for path in PAIR]
        self.assertRegex(self.call("aide-compare", *copied).output, rb"\A1\d open ")
        self.assertFalse(os.path.lexists(self.path("base/state")))
        self.assertRegex(self.call("aide-compare", PAIR[0], copied[1]).output, rb"\A1\d open ")
        self.assertRegex(self.call("aide-compare", *PAIR).output, rb"\A4 open ")

    def test_before_archive(self) -> None:
        """Without the pair of tonight nothing is trusted, and that is said."""
        answer = self.call("aide-compare")
        self.assertIn(b"signed.db.old yet, so it accounts for no change", answer.errors)
        self.assertRegex(answer.output, rb"\A1\d open ")
