"""How a comparison is asked for, and what its state says: streams and forms, the age of what it
reads, and the texts of -c and -A."""
from __future__ import annotations

import gzip
import os
import re
import shutil
import subprocess
import time
from typing import Any

from tests.lib.answer import Answer

from . import mail, test_standings as standings
from .made_up import Night
from .sandbox import COUNTS, CommandTest, DIFFER, END, NEW, OLD, sha256

KINDS = ["added", "removed", "changed"]
NAMES = "old_sha256 new_sha256 old new old_written new_written error".split()
MORE = "trusted_old trusted_old_sha256 trusted_new trusted_new_sha256"
COLUMNS = ["skipped_old", "skipped_new"]
KEYS = ["format", "date", "status", "time", *KINDS, *NAMES, *MORE.split(), *COLUMNS]
ALL_KEYS = KEYS + list(standings.COUNTS)  # With the counts of the standings.
TOOL = "aide-compare compare --report"
MINIMAL = b"AIDE found differences between the two databases.\n"


class RunTest(CommandTest):
    def run_tool(self, *words: str, **more: Any) -> Answer:
        """What the command says of these words and the two databases."""
        return self.call(TOOL, "old.db", "new.db", *words, **more)

    def named(self, old: str, new: str) -> str:
        """The lines of a configuration that name two databases."""
        return f"database_in=file:{self.path(old)}\ndatabase_new=file:{self.path(new)}\n"

    def test_reports(self) -> None:
        """The report is that of the program itself over the plain databases."""
        after = "\n" + self.named("old.db", "new.db")
        words = [self.program, "-E", "-c", "/dev/null", "-A", after]
        done = subprocess.run(words, stdin=subprocess.DEVNULL, stdout=subprocess.PIPE)
        self.assertEqual(done.returncode, 7, "the databases differ in every way")
        report = done.stdout.replace(self.path("old.db").encode(), b"/proc/self/fd/3")
        report = report.replace(self.path("new.db").encode(), b"/proc/self/fd/4")
        for pair in (("old.db", "new.db"), ("old.db.gz", "new.db.gz"), ("/dev/stdin", "new.db")):
            answer = self.call(TOOL, *pair, text=gzip.compress(OLD))
            self.expect("the report of %s and %s" % pair, answer, 7, report)
            if "gz" not in pair[0]:
                self.assertEqual(answer.output, report, pair)
        self.expect("the databases are named", self.run_tool(), 7, report, DIFFER)

    def test_statuses(self) -> None:
        for other, status in (
            (OLD, 0),
            (OLD.replace(END, b"/e 36 100644 1\n" + END), 1),
            (OLD.replace(b"/b 36 40755 4096\n", b""), 2),
            (OLD.replace(b"644 10", b"644 11"), 4),
            (b"x", 24),
        ):
            self.write("other.db", other)
            self.expect("the status %d" % status, self.call(TOOL, "old.db", "other.db"), status)
        with open("/dev/full", "wb") as full:
            self.expect("full errors", self.call(TOOL, "old.db", "other.db", stderr=full), 24, b"")
            answer = self.run_tool(stdout=full)
        self.expect("a full output", answer, 18, b"", b"aide-compare: cannot write the report")

    def test_arguments(self) -> None:
        option = "report_level=minimal"
        self.write("-A", OLD)
        for words, text in (
            (["-A" + option, "old.db", "new.db"], None),
            (["--after=" + option, "old.db", "new.db"], None),
            (["-A", option, "-", "new.db"], OLD),
            (["-A", option, "old.db.gz", "-"], gzip.compress(NEW)),
            (["-A", option, "--", "-A", "new.db"], None),
        ):
            answer = self.call(TOOL, *words, text=text)
            self.assertEqual((answer.status, answer.output), (7, MINIMAL), (words, answer))
        brief = self.call("aide-compare", "old.db", "new.db").output
        self.answered(7, brief, None, "aide-compare", f"-A# {option}", "old.db", "new.db")
        answer = self.call(TOOL, "-", "-", text=OLD)
        self.expect("standard input twice", answer, 15, b"", b"only one database")
        answer = self.run_tool("-A", "database_in=file:/no")
        report = self.run_tool().output
        self.expect("the databases of the command line win", answer, 7, report, DIFFER)

    def test_no_output_is_read(self) -> None:
        """No file that is read is replaced, be it named by the command line or by the defaults."""
        self.write("etc/defaults", "--databases {0}/old.db {0}/new.db\n".format(self.root))
        others = {"list": "/a\n", "aide.conf": "report_level=minimal\n", "etc/without": "/a\n"}
        for name, text in others.items():
            self.write(name, text)
        named = [("", "new.db"), ("old.db new.db", "new.db"), ("", "etc/without")]
        named += [("", "etc/defaults"), ("--exclude-from list", "list")]
        named += [("--config ./aide.conf old.db new.db", "aide.conf")]
        said = b"an output is one of the files read, which would be replaced"
        for option in ("--json", "--page", "--state"):
            for words, name in named:
                self.refused(15, said, "aide-compare", option, f"./{name}", *words.split())
        self.assertEqual(self.read("new.db"), NEW)
        for name, text in others.items():
            self.assertEqual(self.read(name), text.encode())

    def test_state(self) -> None:
        before = int(time.time())
        self.call(TOOL, "old.db.gz", "./new.db", "--state", "state")
        state = self.state()
        self.assertEqual(list(state), ALL_KEYS)
        want = {
            **{"format": "3", "status": "7", **COUNTS, "error": ""},
            **{"old_sha256": sha256(OLD), "new_sha256": sha256(NEW)},
            **{"old": "old.db.gz", "new": "./new.db"},
        }
        self.assertEqual({**state, **want}, state, "the values of a state")
        moment = int(state["time"])
        self.assertTrue(before <= moment <= time.time(), state)
        self.call(TOOL, "old.db", "old.db.gz", "--state", "state")
        state = self.state()
        self.assertEqual([state[key] for key in ("status", *KINDS)], ["0"] * 4)

    def test_links_without_targets(self) -> None:
        """A link whose rule does not ask for its target says so: nobody knows where it leads."""
        for attr, lname, more in ((540, b"0", ", the rule records no target"), (542, b"t", "")):
            for name, inode in (("1.db", 7), ("2.db", 8)):
                head = b"@@begin_db\n@@db_spec name lname attr perm uid gid inode\n"
                lines = b"/d 0 540 40755 0 0 %d\n/x %s %d 120777 0 0 %d\n"
                self.write(name, head + lines % (inode, lname, attr, inode) + END)
            answer = self.call("aide-compare", "1.db", "2.db")
            found = re.findall("changed  /x: another inode(.*)", answer.output_text)
            self.assertEqual(found, [more] if more else [], answer)

    def test_locale(self) -> None:
        """The name of a database is shown and kept by its bytes, whatever the locale says of them."""
        words = ["localedef", "-i", "en_US", "-f", "ISO-8859-1", self.path("en_US.ISO-8859-1")]
        if not shutil.which("localedef") or subprocess.call(words, stderr=subprocess.DEVNULL):
            self.skipTest("not installed: locales")
        self.write("d\u00e9.db", NEW)
        locale = {"LC_ALL": "en_US.ISO-8859-1", "LOCPATH": self.root}
        words = ["--state", "state", "old.db", "d\u00e9.db"]
        answer = self.call("aide-compare", *words, environment=locale)
        self.assertIn("new database: d\u00e9.db,", answer.error_text)
        self.assertEqual(self.state()["new"], "d\u00e9.db")

    def test_failed_states(self) -> None:
        """A failure leaves a state with its cause and without counts; bad arguments leave it."""
        self.write("bad.db", NEW.replace(b"@@end_db", b"\x01|x"))
        missing = "aide-compare: cannot open the new database missing|\\012"
        for words, status, error in (
            (("old.db", "bad.db"), "24", "aide: new database:6: "),
            (("old.db", "missing|\n"), "18", missing),
            ((), "15", "aide-compare: no databases are named"),
        ):
            self.call(TOOL, "--state", "state", *words)
            state = self.state()
            found = [state["status"], *(state[key] for key in KINDS), list(state)]
            self.assertEqual(found, [status, "", "", "", KEYS], words)
            self.assertTrue(state["error"].startswith(error), state)
        before = self.read("state")
        self.call(TOOL, "--state", "state", "old.db")
        self.assertEqual(self.read("state"), before, "bad arguments leave the state")


HOUR = 3600
YEARS = 2 * 365 * 24 * HOUR
REFUSAL = "aide-compare: the new database %s is %s old, more than --max-age allows"
REFUSAL += ": does AIDE still run?\n"


class AgeTest(CommandTest):
    def setUp(self) -> None:
        super().setUp()
        self.write_aged("late.db", NEW, 3 * HOUR + 60)
        self.write_aged("fresh.db", NEW, 50)
        self.write_aged("years.db", OLD, YEARS + 60)

    def write_aged(self, name: str, text: bytes, seconds: int) -> None:
        """A database that was written so many seconds ago."""
        os.utime(self.write(name, text), (time.time() - seconds,) * 2)

    def too_old(
        self, new: str, *words: str, name: str = "", age: str = "3 hours", limit: str = "7200"
    ) -> Answer:
        """Nothing is compared, and the one line says why, in the state too."""
        line = REFUSAL % (name or new, age)
        databases = words or ("old.db", new)
        answer = self.refused(
            18, line.encode(), TOOL, "--max-age", limit, *databases, state="state"
        )
        self.assertEqual(answer.errors, line.encode(), "one line")
        state = self.state()
        self.assertEqual(list(state), KEYS)
        self.assertEqual([state[key] for key in KEYS[4:9]], [""] * 5, "no counts, no digests")
        return answer

    def test_old_files(self) -> None:
        self.too_old("late.db", limit=str(3 * HOUR))
        self.too_old("years.db", age="730 days", limit="180000")
        names = [self.path(name) for name in ("old.db", "late.db")]
        self.write("etc/defaults", f"--databases {' '.join(names)}\n")
        self.too_old("late.db", "-v", name=names[1])
        self.refused(18, b"cannot open the new", TOOL, "--max-age", "60", "old.db", "missing")

    def test_accepted(self) -> None:
        """No limit, or an age below it; and the age of the old database does not matter."""
        self.write_aged("soon.db", NEW, -500)
        for label, words in (
            ("--max-age 0", ["late.db", "--max-age", "0"]),
            ("an age below the limit", ["late.db", "--max-age", str(3 * HOUR + 600)]),
            ("a clock that is a little behind", ["soon.db", "--max-age", "2h"]),
        ):
            answer = self.call(TOOL, "--state", "state", "years.db", *words)
            self.expect(label, answer, 7, b"Changed entries:         2", DIFFER)
            self.assertEqual((self.state()["status"], self.state()["error"]), ("7", ""), label)

    def test_future(self) -> None:
        self.write_aged("later.db", NEW, -90 * HOUR)
        told = b"later.db was written 3 days in the future: is a clock wrong?"
        self.refused(18, told, TOOL, "--max-age", "2h", "old.db", "later.db")

    def test_links(self) -> None:
        """The age is that of the file, and not of a link to it."""
        for target, name in (("late.db", "fresh link"), ("fresh.db", "late link")):
            os.symlink(target, self.path(name))
        os.utime(self.path("late link"), (time.time() - 3 * HOUR,) * 2, follow_symlinks=False)
        self.too_old("fresh link")
        self.answered(7, b"Changed", DIFFER, TOOL, "--max-age", "7200", "old.db", "late link")

    def test_pipes(self) -> None:
        """A pipe has no age: with a limit it is refused, and nobody waits for a writer. A
        redirected file has one."""
        words = (TOOL, "--max-age", "7200")
        told = (
            b"the new database /dev/stdin is not a regular file, so --max-age does not know its age"
        )
        self.refused(18, told, *words, "old.db", "/dev/stdin", text=NEW, state="state")
        self.answered(
            7, b"Changed", DIFFER, TOOL, "--max-age", "0", "old.db", "/dev/stdin", text=NEW
        )
        self.answered(7, b"Changed", DIFFER, *words, "/dev/stdin", "new.db", text=OLD)
        with open(self.path("late.db"), "rb") as file:
            self.refused(
                18, b"/dev/stdin is 3 hours old", *words, "old.db", "/dev/stdin", stdin=file
            )
        with open(self.path("new.db"), "rb") as file:
            self.answered(7, b"Changed", DIFFER, *words, "old.db", "/dev/stdin", stdin=file)

    def test_order(self) -> None:
        """A new database that AIDE wrote before the old one is compared, and a note asks whether
        the two were swapped. Their own times say it: a copy has another one as a file."""

        def dated(text: bytes, time: str) -> bytes:
            comment = f"# Time of generation was {time}\n".encode()
            return text.replace(b"@@db_spec", comment + b"@@db_spec", 1)

        said = b"the new database is older than the old one"
        for old, new, is_older in (
            ("2026-11-28 03:00:00", "2026-11-25 03:00:00", True),
            ("2026-11-28 03:00:00", "2026-11-28 03:00:00", False),
            ("2026-11-28 03:00:00 +0100", "2026-11-28 02:59:59 +0100", True),
            ("2026-11-28 03:00:00", "2026-11-25 03:00:00 +0000", False),
        ):
            self.write("dated.db", dated(OLD, old))
            self.write("late.db", dated(NEW, new))
            answer = self.call(TOOL, "dated.db", "late.db")
            self.assertEqual(answer.status, 7, answer)
            self.assertEqual(said in answer.errors, is_older, (old, new, answer))


PLACES = ("/etc/passwd", "/etc/shadow", "/etc/aide/aide.conf", "/usr/sbin/sshd", "/usr/bin/vi")
# All attributes that the changes have.
ALL = "p+u+g+s+b+l+m+c+i+n+acl+xattrs+selinux+caps+e2fsattrs+md5+sha1+sha256+sha512"
TOLD = "5 open (5 high) of 5 changes"
SILENCING = f"report_ignore_changed_attrs={ALL}\n"


class SettingsTest(CommandTest):
    def setUp(self) -> None:
        super().setUp()
        mail.prepare(self)
        old, new = Night(), Night()
        for night, text in ((old, b"as before"), (new, b"of an intruder")):
            for path in PLACES:
                mode = 0o104755 if night is new and path.endswith("vi") else 0o100755
                night.file(path.encode(), text, mode)
        self.write("aide.db", old.database())
        self.write("aide.db.new", new.database())

    def morning(self, names: str = "{0}/aide.db {0}/aide.db.new") -> Answer:
        """What the command of each day says of these databases."""
        self.write("etc/defaults", f"--databases {names.format(self.root)}\n")
        return mail.call(self, "--state", "state", "--max-age", "50h")

    def test_silencing(self) -> None:
        """Each change is told: no command reads AIDE's configuration, whatever it says."""
        self.assertEqual(self.morning().status, 4)
        self.assertIn(TOLD, mail.subject(mail.sent(self)))
        counts = self.state()
        self.assertEqual((counts["open"], counts["changed"]), ("5", "5"))
        self.write("etc/defaults", "--config aide.conf\n")
        said = b"this option cannot be a default: --config aide.conf"
        self.refused(15, said, "aide-compare", "aide.db", "aide.db.new")
        own = os.path.join(self.root, "lib", "aide_compare")
        named = set()
        for above, _, files in os.walk(own):
            for name in files:
                path = os.path.join(above, name)
                if name.endswith(".py") and b'aide.conf"' in self.read(path):
                    named.add(name)
        self.assertEqual(named, {"setup_machine.py"})

    def test_other_names(self) -> None:
        """One file is never compared with itself, by whatever names."""
        link = self.path("linked.db")
        os.link(self.path("aide.db.new"), link)
        odd = f"{self.root}//./aide.db.new"
        for name in (odd, link, self.path("aide.db.new")):
            self.morning(name + " {0}/aide.db.new")
            self.assertEqual(self.state()["status"], "17", name)
            self.assertIn("failure", mail.subject(mail.sent(self)), name)
            said = b"one file as the old and as the new database: "
            self.answered(17, b"", said, "aide-compare", name, "aide.db.new")
        said = b"one file as the trusted new and as the new database: "
        words = ("--trusted", "aide.db", link, "aide.db", "aide.db.new")
        self.answered(17, b"", said, "aide-compare", *words)
        shutil.copy(self.path("aide.db.new"), self.path("copied.db"))
        self.answered(0, b"no differences", None, "aide-compare", "copied.db", "aide.db.new")

    def test_word_of_a_person(self) -> None:
        """What a person names counts. A run that is silent for it says how much it leaves out."""
        self.morning()
        self.write("own.conf", SILENCING)
        note = b"aide-compare: report_ignore_changed_attrs leaves 19 attributes out"
        note += b" of the comparison\n"
        for words in (("-c", "own.conf", "aide.db", "aide.db.new"), ("-A", SILENCING)):
            self.answered(0, None, note, "aide-compare", *words)
            answer = self.call("aide-compare", "--report", *words)
            self.assertEqual(answer.errors, note, words)
        answer = self.call("aide-compare", "-A", "report_ignore_changed_attrs=m")
        self.assertNotIn(b"out of the comparison", answer.errors)
        self.assertEqual(answer.status, 4)

    def test_missing(self) -> None:
        """Without the line of the defaults, and without a baseline, it is said what to do."""
        said = [b"no databases are named\n", b"name OLD and NEW, or as root: aide-compare setup\n"]
        self.refused(15, said, "aide-compare", "--no-defaults", state="state")
        self.morning()
        named = b"--config names no databases: name OLD and NEW\n"
        self.refused(15, named, "aide-compare", "-c", "/dev/null")
        os.remove(self.path("etc/defaults"))
        self.assertEqual(mail.call(self, "--state", "state").status, 15)
        self.assertIn(b"no databases are named", mail.body(mail.sent(self)))
