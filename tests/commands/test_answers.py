"""What people type by mistake, and that the answer says what to do."""
from __future__ import annotations

import gzip
import hashlib
import os
import time

from .accepting import AcceptingTest
from .made_up import Night
from .sandbox import NEW, OLD, CommandTest, sha256

TOOL = "aide-compare"
LIST = "tool.without"


class AnswersTest(CommandTest):
    def setUp(self) -> None:
        super().setUp()
        self.write("old.db", OLD)
        self.write("new.db", NEW)

    def test_outputs(self) -> None:
        """Two outputs in one place, and one that is read, are named; a database is no output."""
        packed = gzip.compress(OLD)
        self.write("packed.db.gz", packed)
        self.write("other.db", OLD)
        pair = ("old.db", "new.db")
        for words, status, text in (
            (("--json", "x", "--page", "x", *pair), 15, b"two outputs have one place: "),
            (("--json", "-", "--page", "-", *pair), 15, b"one place: standard output"),
            (("--json", "new.db", *pair), 15, b"which would be replaced: new.db\n"),
            (("--json", "other.db", *pair), 15, b"--json would replace a database: other.db\n"),
            (("--page", "packed.db.gz", *pair), 15, b"would replace a database: packed.db.gz\n"),
            (("--state", "other.db", *pair), 15, b"state file would replace a database: other.db"),
            (("page", "old.db"), 15, b"or none, and not only old.db\n"),
        ):
            self.refused(status, text, TOOL, *words)
        self.assertEqual(self.read("other.db"), OLD)
        self.assertEqual(self.read("packed.db.gz"), packed)
        for text in (b"", b"\x1f\x8bno gzip", b"[]"):
            self.write("output", text)
            self.answered(7, None, None, TOOL, "--json", "output", *pair)
            self.assertIn(b'"kind":"changed"', self.read("output"))

    def test_options(self) -> None:
        self.refused(17, b"there is no option report_levl: see", *AFTER, "report_levl=summary")
        self.refused(17, b"line 1: report_level=sumary\n", *AFTER, "report_level=sumary")
        self.refused(18, b"there is no directory nowhere\n", TOOL, *ARCHIVE, "--from", "nowhere")
        self.refused(15, b"no --dry-run: --check says what is missing", TOOL, "setup", "--dry-run")

    def test_show(self) -> None:
        """A star in a path means itself."""
        none = b"neither database has /*: AIDE has no rule for it"
        self.answered(7, none, None, TOOL, "show", "/*", "old.db", "new.db")

    def test_nothing_left_out(self) -> None:
        """A pattern of the command line that leaves out no change says so, and one of a file does
        not: most of its lines leave out nothing in most nights."""
        told = (
            b"aide-compare: --exclude /b/ leaves out no change; all that is in a directory: /b/**\n"
        )
        pair = ("old.db", "new.db")
        self.answered(7, None, [told], TOOL, "--exclude", "/b/", *pair)
        for pattern in ("/x/**", "programs(cron) /x"):
            said = self.answered(7, None, None, TOOL, "--exclude", pattern, *pair)
            self.assertIn(f"--exclude {pattern} leaves out no change\n".encode(), said.errors)
        self.write(LIST, "/x/**\n")
        said = self.answered(7, None, None, TOOL, "--exclude-from", LIST, *pair)
        self.assertNotIn(b"leaves out no change", said.errors)
        said = self.answered(7, None, None, TOOL, "--exclude", "/x", "--quiet", *pair)
        self.assertEqual(said.errors, b"")

    def test_digests(self) -> None:
        """Who wants to read what differs sees no digests, who accepts it by a script does."""
        for words, count in (((), 0), (("-v",), 1), (("--report",), 0), (("--report", "-v"), 1)):
            errors = self.call(TOOL, *words, "old.db", "new.db").errors
            self.assertEqual(errors.count(b", SHA-256 " + sha256(NEW).encode()), count, words)
            self.assertEqual(errors.count(b" database: "), 2, words)

    def test_accepted(self) -> None:
        """After `accept` both are equal, and AIDE is not asked for."""
        self.write("same.db", OLD)
        now = int(time.time())
        os.utime(self.path("same.db"), (now, now - 60))
        os.utime(self.path("old.db"), (now, now))
        said = self.answered(0, None, None, TOOL, "old.db", "same.db")
        self.assertIn(b"AIDE has not run since: both databases are equal\n", said.errors)
        self.assertRegex(said.errors, rb"accepted on \d{4}-\d\d-\d\d \d\d:\d\d UTC; ")
        os.utime(self.path("old.db"), (now, now - 120))
        said = self.answered(0, None, None, TOOL, "old.db", "same.db")
        self.assertIn(b"byte for byte: has AIDE written a new one?\n", said.errors)


AFTER = (TOOL, "old.db", "new.db", "-A")
ARCHIVE = ("archive", "old.db", "new.db")


class NeverLeftOutTest(CommandTest):
    """Why a change is open that a line of the list names."""

    def compared(self, old: Night, new: Night, *words: str) -> bytes:
        self.write("old.db", old.database())
        self.write("new.db", new.database())
        return self.call(TOOL, *words, "old.db", "new.db").errors

    def test_reasons(self) -> None:
        for path, mode, reason in (
            (b"/srv/tool", 0o104755, b"set-user-ID"),
            (b"/srv/tool", 0o102755, b"set-group-ID"),
            (
                b"/srv/tool",
                0o100755,
                b"a program, and the line does not begin with programs(REASON)",
            ),
            (b"/etc/aide-compare/without", 0o100644, b"it decides on reports"),
        ):
            new = Night().file(path, b"text", mode)
            errors = self.compared(Night(), new, "-v", "--exclude", "/**")
            told = b": /** (--exclude) names it, but it is never left out: " + reason + b"\n"
            self.assertIn(b"aide-compare: " + path + told, errors)
            said = self.call(TOOL, "show", path.decode(), "--exclude", "/**", "old.db", "new.db")
            self.assertIn(b"    /** (--exclude) names it, but it is never left out: ", said.output)
            self.assertNotIn(b"never", self.compared(Night(), new, "--exclude", "/**"))

    def test_settings(self) -> None:
        """A list leaves out settings, unless a trusted pair has the same change."""
        new = Night().file(b"/etc/default/aide", b"text", 0o100644)
        words = ("-v", "--exclude", "/etc/default/*")
        self.assertIn(b"left out by /etc/default/*", self.compared(Night(), new, *words))
        self.write("there-old.db", Night().database())
        self.write("there-new.db", new.database())
        pair = ("--trusted", "there-old.db", "there-new.db")
        errors = self.compared(Night(), new, *words, *pair)
        told = b"/etc/default/* (--exclude) names it, but a trusted pair has the same change, and "
        self.assertIn(told + b"none silences what decides on reports\n", errors)

    def test_directories(self) -> None:
        """Who may write one decides."""
        for old, new, reason in (
            (
                Night(),
                Night().directory(b"/srv/d", 0o40777),
                b"users other than its owner can write",
            ),
            (
                Night().directory(b"/srv/d"),
                Night().directory(b"/srv/d", uid=1000),
                b"a directory with another owner",
            ),
        ):
            self.assertIn(reason, self.compared(old, new, "-v", "--exclude", "/srv/**"))

    def test_no_reason(self) -> None:
        """A line that does not name a change says nothing of it, such as for a dot."""
        new = Night().file(b"/srv/.x", b"text", 0o104755).file(b"/srv/plain", b"text")
        errors = self.compared(Night(), new, "-v", "--exclude", "/srv/*")
        self.assertNotIn(b"never left out", errors)
        self.assertIn(b"left out by /srv/* (--exclude): 1 change\n", errors)
        errors = self.compared(Night(), new, "-v", "--exclude", "/srv/.*")
        self.assertIn(b"/srv/.x: /srv/.* (--exclude) names it, but it is never", errors)

    def test_many(self) -> None:
        """So many lines and no more."""
        new = Night()
        for number in range(25):
            new.file(b"/srv/%02d" % number, b"text", 0o104755)
        errors = self.compared(Night(), new, "-v", "--exclude", "/srv/**")
        self.assertEqual(errors.count(b"is never left out"), 20)
        self.assertIn(b"and 5 more that the list names are not left out\n", errors)


class PackedDigestTest(AcceptingTest):
    def test_packed(self) -> None:
        """The digest of a packed file is none of its database, and the answer says so."""
        packed = gzip.compress(NEW)
        self.write("new.db.gz", packed)
        self.write("base.db", OLD)
        digest = hashlib.sha256(packed).hexdigest()
        words = ("aide-compare accept", "--sha256", digest, "new.db.gz", "base.db")
        self.refused(
            24, b"that is the digest of the packed file: zcat new.db.gz | sha256sum", *words
        )
        words = ("aide-compare accept", "--sha256", "0" * 64, "new.db.gz", "base.db")
        answer = self.refused(24, b"is not the database", *words)
        self.assertNotIn(b"packed file", answer.errors)
        self.assertEqual(self.read("base.db"), OLD)
        words = ("aide-compare accept", "--sha256", sha256(NEW), "new.db.gz", "base.db")
        self.answered(0, None, b"", *words)
