"""The history of the nights beside the state file, and what a comparison by hand leaves alone."""
from __future__ import annotations

import json
import os

from tests.commands import mail
from tests.lib.answer import Answer

from .sandbox import CommandTest, NEW, OLD, sha256

STATUS = "aide-compare status"
DEFAULTS = "--databases old.db new.db\n--state daily/state\n"
HISTORY = "daily/history.jsonl"


class HistoryTest(CommandTest):
    def setUp(self) -> None:
        super().setUp()
        mail.prepare(self)
        os.mkdir(self.path("daily"))
        self.write("etc/defaults", DEFAULTS)

    def night(self, size: int, *words: str, tool: str = "aide-compare mail") -> Answer:
        """A comparison over a new database of its own."""
        self.write("new.db", NEW.replace(b"/a 36 100644 5", b"/a 36 100644 %d" % size))
        return self.call(tool, *words)

    def lines(self) -> list[dict[str, object]]:
        return [json.loads(line) for line in self.read(HISTORY).splitlines()]

    def test_nights(self) -> None:
        """Each night is a line with date, status, counts and digests, and without a name; the same
        comparison once more is no other night. Only so many are kept."""
        for size in (1, 2, 2, 3):
            self.assertEqual(self.night(size).status, 7)
        self.night(3, tool="aide-compare")
        lines = self.lines()
        self.assertEqual(len(lines), 3)
        new = sha256(self.read("new.db"))
        counts: dict[str, object] = {"open": 4, "open_medium": 4, "recorded": 0, "same": 0}
        digests = {"new_sha256": new, "old_sha256": sha256(OLD)}
        wanted = {"status": 7, "old": "", "new": "", **counts, **digests}
        self.assertLessEqual(wanted.items(), lines[-1].items())
        self.assertRegex(str(lines[-1]["date"]), r"\A\d{4}-\d\d-\d\dT\d\d:\d\d:\d\dZ\Z")
        self.assertEqual(
            os.stat(self.path(HISTORY)).st_mode, os.stat(self.path("daily/state")).st_mode
        )
        self.set_names("compare.history", MAX_NIGHTS=3)
        for size in (4, 5):
            self.night(size)
        self.assertEqual([line["new_sha256"] for line in self.lines()][0], new)
        self.assertEqual(len(self.lines()), 3)
        self.assertEqual({*os.listdir(self.path("daily"))}, {"history.jsonl", "state"})

    def test_failures(self) -> None:
        """A night that fails is a line too, with its cause; by hand it leaves all as it was."""
        self.night(1)
        before = self.read(HISTORY), self.read("daily/state")
        os.rename(self.path("new.db"), self.path("away"))
        for tool in ("aide-compare", "aide-compare json", "aide-compare -q", f"{STATUS} -q"):
            self.call(tool)
            self.assertEqual((self.read(HISTORY), self.read("daily/state")), before, tool)
        self.answered(18, b"", b"cannot open the new", "aide-compare", "--exclude-from", "old.db")
        self.write("etc/without", "no path\n")
        self.call("aide-compare")
        self.assertEqual((self.read(HISTORY), self.read("daily/state")), before, "a faulty list")
        os.remove(self.path("etc/without"))
        mail.call(self)
        self.assertEqual([line["status"] for line in self.lines()], [7, 18])
        self.write("etc/without", "no path\n")
        os.rename(self.path("away"), self.path("new.db"))
        mail.call(self)
        statuses = [line["status"] for line in self.lines()]
        self.assertEqual(statuses, [7, 18, 17], "what could not begin")
        self.assertIn("cannot open the new database", str(self.lines()[1]["error"]))
        os.remove(self.path("etc/without"))
        self.call("aide-compare", "--state", "daily/state", "old.db", "gone.db")
        self.assertEqual(self.lines()[-1]["status"], 18, "a state that is named")

    def test_damage(self) -> None:
        """What is no line of a night is passed over, and a link is not followed."""
        self.night(1)
        whole = self.read(HISTORY)
        self.write(HISTORY, b"x\n{}\n[1]\n" + whole + b'{"format":3,"status":0')
        self.night(2)
        self.assertEqual(len(self.lines()), 2)
        self.assertTrue(self.read(HISTORY).startswith(whole))
        os.rename(self.path(HISTORY), self.path("kept"))
        os.symlink("../kept", self.path(HISTORY))
        kept = self.read("kept")
        answer = self.night(3)
        self.expect("a link", answer, 18, b"", b"")
        self.assertIn(b"cannot write the history", mail.body(mail.sent(self)))
        self.assertEqual(self.read("kept"), kept)

    def test_table(self) -> None:
        """People read the last 30 nights; the other forms are as they were."""
        self.answered(18, b"", b"no night is known", STATUS, "--history")
        for size in range(3):
            self.night(size + 1)
        os.remove(self.path("new.db"))
        mail.call(self)
        output = self.answered(0, None, b"", STATUS, "--history").output.decode()
        head, *nights = output.splitlines()
        self.assertEqual(
            head.split(), "night status high medium low open recorded left out trusted same".split()
        )
        self.assertEqual(len(nights), 4)
        self.assertRegex(nights[0], r"\A\d{4}-\d\d-\d\d \d\d:\d\d UTC +7 +0 +4 +0 +4 +0 +0 +0 +0\Z")
        self.assertRegex(nights[3], r" UTC +18  aide-compare: cannot open the new database ")
        self.write(HISTORY, self.read(HISTORY) * 20)
        output = self.call(STATUS, "--history").output.decode()
        self.assertEqual(len(output.splitlines()), 31)
        for form in ("json", "prometheus", "nagios"):
            self.refused(15, b"only --format text has", STATUS, "--history", "--format", form)
        self.answered(0, b'{"format": 3', b"", STATUS, "--format", "json")
