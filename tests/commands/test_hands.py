"""Units, cron and hands agree: the administrator's defaults, root's comparison by hand, and the
unit that says that one failed."""
from __future__ import annotations

import os
import shlex
from typing import Any

from . import mail
from . import test_standings as standings
from .sandbox import CommandTest, NOBODY, Texts
from .test_one_truth import started

TOOL, NAGIOS = "aide-compare", "check_aide_compare"
NIGHT = ("o.db", "n.db")
# A program in place of the proved one, which notes whose rights it has.
NOTES = 'case $1 in -E) echo "$(id -u) $$" >> %s;; esac\nexec %s "$@"'


class HandsTest(CommandTest):
    def prepare(self, lines: str) -> None:
        """The defaults, a file of what is left out, and four changes, of which two are left out."""
        mail.prepare(self)
        standings.prepare(self)
        self.write("etc/defaults", "# What all have in common\n\n--max-size 1024G\n%s" % lines)
        self.write("etc/without", "/srv/*\n")

    def mails(self, status: int, *words: str) -> Any:
        """The mail of a comparison, which prints nothing."""
        self.expect(f"the mail of {words}", mail.call(self, *words), status, b"", b"")
        return mail.sent(self)

    def of_unit(self, unit: str, **variables: str) -> Any:
        """The mail that a unit's own words send, with no environment but what is given."""
        words = [
            self.path("queue") if "/mail" in word else word
            for word in started(f"systemd/{unit}", "ExecStart")
        ]
        command = self.command(TOOL, *words)
        child = os.posix_spawn(command[0], command, variables)
        self.assertEqual(os.waitstatus_to_exitcode(os.waitpid(child, 0)[1]), 0, unit)
        return mail.sent(self)

    def test_failed_unit(self) -> None:
        """The unit that a failure starts mails it, with systemd's variables or without."""
        mail.prepare(self)
        self.set_names("mail.sending", MAILERS=(self.path("stubs/sendmail"),))
        failed = "aide-compare.service failed%s. Its lines: journalctl -u aide-compare.service\n"
        none: dict[str, str] = {}
        before = {"MONITOR_SERVICE_RESULT": "exit-code"}
        variables = {**before, "MONITOR_EXIT_STATUS": "18"}
        for more, cause in (
            (none, ""),
            (before, ": exit-code, status unknown"),
            (variables, ": exit-code, status 18"),
        ):
            message = self.of_unit("aide-compare-failed.service", **more)
            self.assertEqual(mail.subject(message), mail.SUBJECT + "the comparison failed")
            self.assertEqual(mail.body(message), (failed % cause).encode())
        message = self.of_unit("aide-compare-failed.service", MONITOR_SERVICE_RESULT="success")
        begin = b"aide-compare.service did not begin: AIDE, for which it waits, has not ended or"
        self.assertTrue(mail.body(message).startswith(begin), "a job that was timed out")
        self.assertIsNone(self.of_unit("aide-compare-mail.service"), "a success mails no failure")

    def test_defaults(self) -> None:
        """A run by hand, a mail and the check go by the same lines."""
        self.prepare("  --mail-time=9s \n--to a@b.example\n--critical 99\n--warning 98\n")
        told: list[bytes] = [b"1 open (1 high), 1 recorded of 6 changes", b"by /srv/* ("]
        self.answered(5, None, told, TOOL, "-v", "--state", "hand.state", *NIGHT)
        self.assertEqual(self.mails(5, *NIGHT)["To"], "a@b.example", "it needs no state")
        check = (NAGIOS, "--state", "hand.state")
        self.answered(0, b"AIDE OK: ", b"", *check)
        self.answered(2, None, b"", *check, "--no-defaults")
        answer = self.call(TOOL, "--no-defaults", *NIGHT)
        self.assertNotIn(b"left out", answer.output)
        self.write("own", "/usr/lib/*\n")
        answer = self.call(TOOL, "-v", "--exclude-from", "own", *NIGHT)
        self.assertIn(b"by /usr/lib/* (own, line 1)", answer.errors)
        self.assertNotIn(b"/srv/*", answer.errors, "another file in place of the usual one")

    def test_read_once(self) -> None:
        """A run opens and parses the defaults once: what it obeys is what it looks up."""
        self.prepare("--to a@b.example\n")

        def counted(path: str, *words: str) -> bytes:
            from aide_compare.base.files import trusted_text

            with open("read", "a") as file:
                file.write(f"{path[-8:]} ")
            return trusted_text(path, *words)

        self.patch("base.parser.trusted_text", counted)
        for tool in (TOOL, "aide-compare json", "aide-compare mail"):
            self.call(tool, *NIGHT)
            self.assertEqual(self.read("read"), b"defaults ", tool)
            os.remove(self.path("read"))

    def test_command_of_mail(self) -> None:
        """The command that a mail prints makes the page of the same changes. It leaves no state."""
        self.prepare("--to a@b.example\n")
        message = self.mails(5, "--state", "of.state", *NIGHT)
        shown = mail.body(message).decode().partition(" (with the options of this job):\n    ")[2]
        command = shown.replace(" \\\n      ", " ").partition(" > ")[0]
        self.assertTrue(command.startswith("aide-compare page "), shown)
        self.assertNotIn("--state", command)
        os.remove(self.path("of.state"))
        page: list[bytes] = [b"/usr/.x y", b"</html>"]
        self.answered(5, page, None, TOOL, *shlex.split(command)[1:])
        self.assertFalse(os.path.exists(self.path("of.state")))

    def refused_elsewhere(self, name: str, said: bytes) -> None:
        """A mail and a check refuse a file of the administrator, which is mailed."""
        answer = mail.call(self, *NIGHT)
        self.assertEqual(answer.status, 18, answer)
        self.assertIn(said, mail.body(mail.sent(self)))
        if name == "defaults":
            told = b"AIDE UNKNOWN: " + said
            self.answered(3, told, b"", NAGIOS, "--state", "of.state")

    def test_faulty_defaults(self) -> None:
        """Defaults that others can write are refused, as the list is, and no alarm is lost."""
        cases: list[tuple[int, int, int]] = [(0o666, 0, 0o755), (0o664, 0, 0o755)]
        with self.subTest("another user's places"):
            self.needs_root()
            cases += [(0o644, NOBODY, 0o755), (0o644, 0, 0o777)]
        for name, what in (("defaults", b"defaults"), ("without", b"file of --exclude-from")):
            for mode, owner, folder in cases:
                self.prepare("--max-age 5d\n")
                os.remove(self.path("etc/" + ("without" if name == "defaults" else "defaults")))
                os.chmod(self.path("etc"), folder)
                os.chmod(self.path("etc/" + name), mode)
                if owner:
                    os.chown(self.path("etc/" + name), owner, owner)
                with self.subTest(name=name, mode=oct(mode), owner=owner, folder=oct(folder)):
                    said = b"other users can write the " + what
                    self.refused(18, said, TOOL, *NIGHT)
                    if mode == 0o666:
                        self.refused_elsewhere(name, said)
                os.chmod(self.path("etc"), 0o755)
                os.remove(self.path("etc/" + name))
        os.symlink(self.path("nothing"), self.path("etc/defaults"))
        self.refused(18, None, TOOL, *NIGHT)

    def put_baseline(self) -> None:
        """A baseline in a folder of another user, who alone can read it."""
        self.needs_root()
        standings.prepare(self)
        self.write("his/o.db", self.read("o.db"), 0o600)
        self.write("mine/n.db", self.read("n.db"), 0o600)
        os.chmod(self.path("mine"), 0o700)
        for name in ("his", "his/o.db"):
            os.chown(self.path(name), NOBODY, NOBODY)
        os.mkdir(self.path("out"))
        os.chmod(self.path("out"), 0o777)
        os.rename(self.program, self.program + ".away")
        text = NOTES % (self.path("out/users"), self.program + ".away")
        self.stub("aide", text, "libexec/aide-compare")

    def users(self) -> set[str]:
        """Whose rights the program had since this was asked the last time."""
        found = {line.split()[0] for line in self.read("out/users").decode().splitlines()}
        os.remove(self.path("out/users"))
        return found

    def test_owner(self) -> None:
        """Root becomes the user in whose folder the baseline is. What only root may read, root
        opens before; what the user may not write is refused."""
        self.put_baseline()
        words = ("--state", "his/state", "his/o.db", "mine/n.db")
        counts: Texts = standings.WORDS.encode()
        self.answered(7, b"Changed entries:         4", counts, TOOL, "--report", *words)
        self.assertEqual(self.call(TOOL, *words).output, standings.BRIEF.encode())
        self.assertEqual(self.users(), {str(NOBODY)})
        self.assertEqual(self.state("his/state")["open"], "4")
        self.assertEqual(os.stat(self.path("his/state")).st_uid, NOBODY, "the user's state")
        words = ("--state", "mine/state", *words[2:])
        self.answered(18, b"", b"cannot write the state file mine/state", TOOL, *words)
        self.answered(18, b"", [b"database no: ", b"write the state"], TOOL, *words[:3], "no")
        self.answered(7, None, counts, TOOL, "--user", "root", "--report", *words)
        self.assertEqual(self.users(), {"0"})
        names = (self.path("his/o.db"), self.path("mine/n.db"))
        self.write("etc/defaults", "--databases %s %s\n" % names)
        self.answered(7, None, b"his/o.db, written", TOOL, "--report")
        self.assertEqual(self.users(), {str(NOBODY)}, "by the defaults")
        os.remove(self.path("etc/defaults"))
        self.write("bad.db", b"x\n")
        self.refused(24, b"no @@begin_db", TOOL, "his/o.db", "bad.db", state="his/state")
        os.mkdir(self.path("other"))
        os.chown(self.path("other"), 1, 1)
        self.refused(15, b"choose one by --user", TOOL, *words[2:], state="other/state")
