"""A program that is not proved is for looking only: each answer says so first, and what takes an
answer for the truth refuses it."""
from __future__ import annotations

import os
import re

from .sandbox import CommandTest

PAIR = ("old.db", "new.db")
NOTICE = b"not proved yet: a program without a proof gave this answer, ./compare --prove proves it"
REFUSED = b" needs a proved program, and this one is not: ./compare --prove proves it\n"
MARKER = "libexec/aide-compare/not-proved"


class NotProvedTest(CommandTest):
    def test_what_people_read_says_so_first(self) -> None:
        proved = self.call("aide-compare", *PAIR)
        self.assertNotIn(b"proved", proved.output)
        self.write(MARKER, "")
        for status, words in (
            (7, PAIR),
            (0, ("new.db", "new.db.gz")),
            (7, ("show", "/c", *PAIR)),
            (7, ("--only", "/c", *PAIR)),
            (7, ("--page", "page.html", *PAIR)),
        ):
            with self.subTest(words):
                answer = self.call("aide-compare", *words)
                first = answer.output.splitlines()[0]
                self.assertEqual((answer.status, first), (status, NOTICE), answer)
        answer = self.call("aide-compare", *PAIR)
        self.assertEqual(answer.output, NOTICE + b"\n" + proved.output)
        quiet = self.call("aide-compare", "-q", *PAIR)
        self.assertEqual((quiet.status, quiet.output), (7, b""))

    def test_the_page_says_so_above_all_else(self) -> None:
        page = self.call("aide-compare page", *PAIR)
        self.assertNotIn(b"not proved", page.output)
        self.write(MARKER, "")
        page = self.call("aide-compare page", *PAIR)
        self.assertEqual(page.status, 7)
        body = page.output.partition(b"<body>\n")[2]
        self.assertTrue(body.startswith(b'<p class="notice">' + NOTICE + b"</p>\n"), body[:200])

    def test_what_takes_it_for_the_truth_refuses_it(self) -> None:
        self.write("defaults", "")
        self.write("hosts", "www\n")
        self.write(MARKER, "")
        before = sorted(os.listdir(self.root))
        for tool, words in (
            ("aide-compare mail", PAIR),
            ("aide-compare accept", ("new.db", "old.db")),
            ("aide-compare accept", ("--sha256", "0" * 64, "new.db", "old.db")),
            ("aide-compare setup", ()),
            ("aide-compare setup", ("--check",)),
            ("aide-compare hosts add", ("www",)),
            ("aide-compare hosts list", ("hosts",)),
            ("aide-compare hosts remove", ("www",)),
            ("aide-compare hosts compare", ("hosts",)),
            ("aide-compare hosts accept", ("www",)),
            ("aide-compare hosts report", ("hosts",)),
            ("aide-compare", ("--state", "state", *PAIR)),
            ("aide-compare show", ("/c", "--state", "state", *PAIR)),
            ("aide-compare page", ("--state", "state", *PAIR)),
            ("aide-compare json", PAIR),
            ("aide-compare", ("--json", "lines", *PAIR)),
            ("aide-compare", ("--report", *PAIR)),
            ("aide-compare", ("-A", "report_level=summary", *PAIR)),
        ):
            with self.subTest(tool, words=words):
                answer = self.call(tool, *words)
                self.assertEqual((answer.status, answer.output), (18, b""), answer)
                self.assertTrue(answer.errors.endswith(REFUSED), answer)
        self.assertEqual(sorted(os.listdir(self.root)), before)

    def test_a_state_of_the_defaults(self) -> None:
        """It is refused too, and stays as it is, also after a fault of the defaults."""
        names = " ".join(self.path(name) for name in PAIR)
        defaults = f"--databases {names}\n--state {self.path('state')}\n"
        self.write("etc/defaults", defaults)
        self.call("aide-compare")
        state = self.read("state")
        self.assertIn(b"status", state)
        self.write(MARKER, "")
        for more, status in (("", 18), ("--no-such-option\n", 15)):
            with self.subTest(more):
                self.write("etc/defaults", defaults + more)
                answer = self.call("aide-compare")
                self.assertEqual((answer.status, answer.output), (status, b""), answer)
                self.assertEqual(self.read("state"), state)

    def test_help_and_version_answer(self) -> None:
        self.write(MARKER, "")
        os.remove(self.program)
        for words in (("mail", "--help"), ("hosts", "compare", "-h"), ("setup", "--help")):
            answer = self.call("aide-compare", *words)
            self.assertEqual((answer.status, answer.output[:6]), (0, b"usage:"), answer)
        answer = self.call("aide-compare", "--version")
        self.assertEqual(answer.status, 0, answer)
        self.assertRegex(answer.output_text, re.compile("^program: not installed$", re.M))
        self.assertRegex(answer.output_text, re.compile("^program of lines: /", re.M))
