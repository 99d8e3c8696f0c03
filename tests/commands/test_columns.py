"""Columns that the program does not know: named in notes, state, lines, page, and in one mail."""
from __future__ import annotations

import json
import os
import re

from . import mail
from .sandbox import CommandTest, END

TOOL = "aide-compare"
STATUS, CHECK = "aide-compare status --format ", "check_aide_compare"
STATE = ("--state", "state")
OLD = (
    b"@@begin_db\n@@db_spec name attr perm fstype size\n/b 36 40755 ext4 4096\n"
    b"/c 36 100644 ext4 5\n" + END
)
# The same with an owner and a group, without which no entry is as another one.
OWNED = (
    OLD.replace(b"size\n", b"size uid gid\n")
    .replace(b" 36 ", b" 60 ")
    .replace(b" 4096\n", b" 4096 0 0\n")
    .replace(b" 5\n", b" 5 0 0\n")
)


def with_column(text: bytes, name: bytes) -> bytes:
    text = text.replace(b"size\n", b"size " + name + b"\n")
    return text.replace(b"4096\n", b"4096 1\n").replace(b" 5\n", b" 5 1\n")


NOTE = b"aide-compare: the column fstype is not compared: the program does not know it\n"
FSTYPE = "the column fstype is not compared"


class ColumnsTest(CommandTest):
    def setUp(self) -> None:
        super().setUp()
        self.write("o.db", OLD)
        self.write("same.db", OLD.replace(b"ext4", b"xfs"))
        self.write("more.db", with_column(OLD, b"new"))

    def test_places(self) -> None:
        same = b"no differences in 2 entries\n"
        skipped = b"aide: old database: column 4 skipped\n"
        self.answered(0, same, [NOTE, skipped], TOOL, *STATE, "o.db", "same.db")
        state = self.state()
        self.assertEqual((state["skipped_old"], state["skipped_new"]), ("fstype", "fstype"))
        lines = self.call("aide-compare json", "o.db", "same.db").output
        first, last = (json.loads(line) for line in lines.splitlines())
        self.assertEqual(last["skipped"], {"old": ["fstype"], "new": ["fstype"]})
        self.assertEqual([last[side]["skipped"] for side in ("old", "new")], [[4], [4]])
        self.assertNotIn("skipped", first)
        page = self.call("aide-compare page", "o.db", "same.db").output
        self.assertIn(b"The column fstype is not compared", page)
        told = b"the column new of the new database is not compared"
        self.answered(0, None, [NOTE, told], TOOL, "o.db", "more.db")
        self.call(TOOL, *STATE, "old.db", "new.db")
        self.assertEqual(self.state()["skipped_old"] + self.state()["skipped_new"], "", "no column")

    def test_status(self) -> None:
        """Each form of the status has the names."""
        for name in ("odd.db", "twin.db"):
            self.write(name, with_column(OLD.replace(b"fstype", b'a"b'), b"c\\d"))
        self.call(TOOL, *STATE, "odd.db", "twin.db")
        told = b'the columns a"b, c\\134d are not compared'
        self.answered(0, b"AIDE OK: no difference; %s|" % told, b"", CHECK, *STATE)
        self.answered(0, told, b"", STATUS + "text", *STATE)
        labels = (b'a\\"b', b"c\\\\134d")
        gauges = [b'\naide_compare_skipped_column{name="%s"} 1\n' % label for label in labels]
        self.answered(0, gauges, b"", STATUS + "prometheus", *STATE)
        whole = json.loads(self.call(STATUS + "json", *STATE).output)
        self.assertEqual(whole["skipped_old"], ['a"b', "c\\134d"])

    def test_names(self) -> None:
        """Names of others are escaped and cut; a spec line too far away gives numbers only."""
        for name, told in (
            (b"\x1b[31m\xe2\x80\xae", b"the column \\033[31m\\342\\200\\256 is"),
            (b"n" * 90, b"the column " + b"n" * 40 + b"... is"),
        ):
            for file in ("odd.db", "twin.db"):
                self.write(file, OLD.replace(b"fstype", name))
            self.answered(0, None, told, TOOL, *STATE, "odd.db", "twin.db")
            self.answered(0, None, None, "aide-compare status", *STATE)
        for file in ("far.db", "twin.db"):
            self.write(file, b"#" * (1 << 16) + b"\n" + OLD)
        self.answered(0, None, b"the column #4 is not compared", TOOL, "far.db", "twin.db")

    def mails(self, new: str, subject: str | None, status: int = 0) -> None:
        """A comparison of the daily job sends a mail whose subject ends so, or none."""
        self.expect(new, mail.call(self, *STATE, "o.db", new), status, b"", b"")
        message = mail.sent(self)
        if message is None or subject is None:
            self.assertEqual((message, subject), (None, None), new)
        else:
            self.assertRegex(message["Subject"], f": {re.escape(subject)}$")

    def test_mails(self) -> None:
        """A mail tells a column once, also if nothing differs or all is silent, and once more after
        a run that compared nothing; without a state nobody would know of it."""
        mail.take_mail(self)
        self.mails("same.db", FSTYPE)
        self.mails("same.db", None)
        self.expect("a run that fails", mail.call(self, *STATE, "o.db", "none.db"), 18, b"")
        mail.sent(self)
        self.mails("same.db", FSTYPE)
        self.mails("more.db", "the column new is not compared")
        self.mails("more.db", None)
        self.expect("a mail by hand", mail.call(self, "o.db", "same.db"), 0, b"", b"")
        self.assertIsNone(mail.sent(self), "none is sent by hand")
        os.remove(self.path("state"))
        self.expect("a page", mail.call(self, "--attach-page", *STATE, "o.db", "same.db"), 0, b"")
        message = mail.sent(self)
        self.assertNotIn(b"no page", mail.body(message), "none of what does not differ")
        os.remove(self.path("state"))
        self.write("o.db", OWNED)
        self.write("odd.db", OWNED.replace(b"fstype", b"\xc3\xa9:x").replace(b"4096", b"9"))
        self.mails("odd.db", "1 change, all silent; the columns fstype, ??x are not compared")
