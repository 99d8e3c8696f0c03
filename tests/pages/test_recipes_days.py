"""The recipes of docs/GUIDE.md and docs/HOSTS.md over several days: all is quiet, an
intruder comes, every kind of alarm is raised and raised again, a wrong and the right database are
accepted; then AIDE stops."""
from __future__ import annotations

import base64
import gzip
import hashlib
import os
import re
import time

from tests.lib.answer import Answer
from tests.lib.program_test import slow
from tests.lib.scratch import Scratch, read
from tests.pages.machine import BASELINE, NEWEST, NOBODY, STATE, STORE, example
from tests.pages.recipes import INTRUDER, NIGHT, STORED, Day, RecipesTest, begin, no_comparison

UPGRADED = ("/usr/bin/openssl", "/usr/lib/ssl.so")


def of_texts(texts: dict[str, str]) -> str:
    """A database of files with these texts, which root owns."""
    lines = ""
    for path, text in sorted(texts.items()):
        sums = [make(text.encode()).digest() for make in (hashlib.md5, hashlib.sha256)]
        lines += f"{path} 100755 0 0 1 {' '.join(base64.b64encode(one).decode() for one in sums)}\n"
    return f"@@begin_db\n@@db_spec name perm uid gid size md5 sha256\n{lines}@@end_db\n"


@slow
class DaysTest(RecipesTest):
    contents = Scratch.read  # The bytes of a file.

    def test_days(self) -> None:
        begin(self)
        Day(self, None).ask_all()
        self.put_databases(example("old.db"), example("new.db"))
        yesterday, today = Day(self, STORED), Day(self, STORED)
        yesterday.ask_all()
        # Another night with the same changes: another database.
        self.put_databases(example("old.db"), example("new.db").replace(b"generation", b"this"))
        today.ask_all()
        self.accept(self.digest_in(yesterday.mail), self.digest_in(today.mail))
        Day(self, None).ask_all()
        self.is_private()

    def digest_in(self, mail: str) -> str:
        """The digest in the command of a mail, which is that of the recipe."""
        text = mail.replace(" \\\n      ", " ")  # A mail is narrow.
        found = re.search(r"^ {4}(aide-compare accept --sha256 ([0-9a-f]{64}) .*)$", text, re.M)
        self.assertIsNotNone(found, mail)
        assert found
        self.assertEqual(
            self.above(found[1]) + "\n", self.text("accept").replace("DIGEST", found[2])
        )
        return found[2]

    def accept(self, yesterday: str, today: str) -> None:
        """Neither a wrong digest nor yesterday's is taken; that of today's mail is."""
        before = self.contents(BASELINE)
        for digest in ("0" * 64, yesterday):
            self.assertEqual(self.shell(self.text("accept").replace("DIGEST", digest)).status, 24)
        done = self.shell(self.text("accept partly").replace("DIGEST", today))
        self.assertEqual(done.status, 24)
        self.assertIn("nothing that differs is kept open", done.error_text)
        self.assertEqual(self.contents(BASELINE), before)
        done = self.shell(self.text("accept").replace("DIGEST", today[:16]))
        self.assertEqual(done.status, 0, done)
        accepted, newest = map(self.contents, (BASELINE, NEWEST))
        self.assertEqual(gzip.decompress(accepted), gzip.decompress(newest))
        self.assertEqual(self.contents(BASELINE + ".previous"), before)
        wrong = self.shell(f"aide-compare hosts accept --sha256 {'0' * 64} www")
        self.assertEqual(wrong.status, 24, wrong)
        digest = self.digest_of_state(STORE + "/states/www")
        self.assertEqual(self.shell(f"DIGEST={digest}; {self.text('accept host')}").status, 0)

    def is_private(self) -> None:
        """Nobody else can read a database or what was compared; everyone may read the state."""
        self.assertEqual(os.listdir(self.path("/var/tmp")), [])
        done = self.run_words(["cat", self.path(STATE)], NOBODY)
        self.assertEqual(done.output_text[:11], '{"format": ')
        for folder in ("/var/lib/aide", STORE + "/hosts"):
            for directory, _, names in os.walk(self.path(folder)):
                for name in names:
                    done = self.run_words(["cat", os.path.join(directory, name)], NOBODY)
                    self.assertEqual((done.status, done.output_text), (1, ""), name)

    def test_aide_stops(self) -> None:
        """The new database is too old: no way of asking takes it for a quiet day."""
        begin(self)
        for hours, age in ((28, None), (52, "52 hours"), (76, "3 days")):
            moment = time.time() - hours * 3600 - 600
            os.utime(self.path(NEWEST), (moment, moment))
            if age is None:
                Day(self, None).ask_all()
                continue
            no_comparison(self, 18, f"aide.db.new is {age} old, more than --max-age allows")
            done = self.recipe("age")
            self.assertEqual((done.status, done.output), (18, b""))
        self.prints("age", done.error_text)


@slow
class QuietTest(RecipesTest):
    def test_timer_and_cron(self) -> None:
        """A quiet night sends no mail. An intruder's does, and the mail says what was left out."""
        self.put_night(NIGHT)
        self.assertIn(": 7 open of 7 changes", self.mail_of(self.unit_commands()) or "")
        self.assertEqual(self.recipe("quiet timer"), Answer(b"", b"", 0))
        for name, commands in self.jobs():
            with self.subTest(name):
                self.put_night(NIGHT)
                self.assertIsNone(self.mail_of(commands))
                self.assertEqual(self.state()["left_out"], "7")
                self.put_night(INTRUDER)
                mail = self.mail_of(commands) or ""
                self.assertRegex(mail, r"(?m)^Subject: .*: 2 open \(")
                self.assertIn("/etc/ld.so.preload", mail)
                self.assertRegex(mail, r"Silent: left out: 7 of\s+9 changes\n")

    def test_command(self) -> None:
        self.put_night(NIGHT)
        self.assertEqual(self.recipe("compare").status, 7)
        done = self.recipe("quiet")
        self.assertEqual(done.status, 0)
        self.prints("quiet", done.output_text)
        self.put_night(INTRUDER)
        done = self.recipe("quiet")
        self.assertEqual(done.status, 5, done)
        self.assertIn("/etc/ld.so.preload: ", done.output_text)
        self.assertNotIn("/var/", done.output_text)

    def test_own_files(self) -> None:
        """AIDE's rules have each file that the commands write, and no other one there."""
        os.makedirs(self.path("/etc/aide/aide.conf.d"))
        self.assertEqual(self.recipe("own files"), Answer(b"", b"", 0))
        rules = []
        for line in self.text_at("/etc/aide/aide.conf.d/31_aide_aide-compare").splitlines():
            if line and not line.startswith("#"):
                pattern, kind = line.lstrip("!").split()[:2]
                self.assertTrue("/daily/" not in pattern or line[0] == "!" or "ANF" in line, line)
                rules.append((kind, re.compile(pattern.replace("\\\\", "\\"))))
        self.put_night(INTRUDER)
        self.shell(self.unit_commands()[0])
        daily = self.path(os.path.dirname(STATE))
        paths = [("d", self.path(STORE)), ("f", "/var/lib/systemd/timers/stamp-aide-compare.timer")]
        paths += [("f", self.path(name)) for name in (STATE + ".quiet", BASELINE + ".previous")]
        for directory, _, names in os.walk(daily):
            paths.append(("d", directory))
            paths += [("f", os.path.join(directory, name)) for name in names]
        self.assertTrue([path for _, path in paths if "/daily/mail/" in path], paths)
        for kind, path in paths:
            self.assertTrue([one for one, rule in rules if one == kind and rule.match(path)], path)
        self.assertFalse([rule for _, rule in rules if rule.match(daily + "/other")])

    def test_indexes(self) -> None:
        """AIDE's rules leave out the content of apt's indexes, and neither their names nor new ones."""
        lines = read("contrib/aide/31_aide_aide-compare").splitlines()
        pattern, *kinds = next(line.split() for line in lines if line.startswith("/var/lib/apt"))
        self.assertEqual(kinds, ["f", "VarFile"])
        rule = re.compile(pattern.replace("\\\\", "\\"))
        for name in ("security.ubuntu.com_ubuntu_dists_noble-security_InRelease", "x_Packages.lz4"):
            self.assertTrue(rule.match(f"/var/lib/apt/lists/{name}"), name)
            self.assertFalse(rule.match(f"/var/lib/apt/lists/partial/{name}"), name)

    def test_one_mail(self) -> None:
        """What Debian's own job reads after the recipe."""
        defaults = "#MAILTO=root\n#QUIETREPORTS=no\n#SILENTREPORTS=no\nCOMMAND=update\n"
        self.write("/etc/default/aide", defaults)
        self.assertEqual(self.recipe("one mail"), Answer(b"", b"", 0))
        done = self.shell('. /etc/default/aide; echo "$QUIETREPORTS $SILENTREPORTS $COMMAND"')
        self.assertEqual(done.output_text, "yes  update\n")

    def test_owner(self) -> None:
        """The databases are another user's after a comparison of root's: cron can still write."""
        self.needs_root()
        self.put_night(INTRUDER)
        self.assertEqual(self.run_words(["aide-compare", "--state", self.path(STATE)]).status, 7)
        for owner in (NOBODY, 0):
            for name in (os.path.dirname(BASELINE), BASELINE, NEWEST):
                os.chown(self.path(name), NOBODY, NOBODY)
            os.chown(self.path(NEWEST), owner, owner)
            self.assertIn("Subject: ", self.mail_of(self.jobs()[1][1]) or "")
            self.assertEqual(os.stat(self.path(STATE)).st_uid, owner)

    def test_upgrade(self) -> None:
        """A quiet night, one of an upgrade, then an intruder beside it, and the signed archive."""
        texts = {**dict.fromkeys(UPGRADED, "old"), "/usr/bin/ls": "as it is"}
        later = {**texts, **dict.fromkeys(UPGRADED, "new")}
        self.put_databases(of_texts(texts), of_texts(texts))
        self.set_up()
        mail = self.mail_of(self.unit_commands())
        self.assertTrue(mail is None or "nothing to read" in mail, mail)
        sums = {path: hashlib.md5(later[path].encode()).hexdigest() for path in UPGRADED}
        self.put_packages("3.0.17-1", sums)
        self.put_databases(of_texts(texts), of_texts(later))
        mail = self.mail_of(self.unit_commands()) or ""
        self.assertIn(": 2 recorded (1 high) of 2 changes\n", mail)
        self.assertEqual((self.state()["recorded"], self.state()["open"]), ("2", "0"))
        self.put_databases(of_texts(texts), of_texts({**later, "/usr/bin/ls": "a back door"}))
        mail = self.mail_of(self.unit_commands()) or ""
        self.assertIn(": 1 open (1 high), 2 recorded (1 high) of 3 changes\n", mail)
        done = self.recipe("standings")
        self.assertEqual(done.status, 4, done)
        self.prints("standings", done.output_text)
        self.write(STORE + "/daily/signed.db.old", of_texts(texts))
        self.write(STORE + "/daily/signed.db", of_texts(later))
        mail = self.mail_of(self.unit_commands()) or ""
        self.prints("first mail", mail.partition("\n\n")[2])
