"""A mistake of the commands themselves: it costs no alarm, and says where it is."""
from __future__ import annotations

import os
from collections.abc import Callable
from typing import NoReturn

from tests.commands import mail
from tests.commands.mail import body, subject

from .sandbox import CommandTest

PAIR = ("old.db", "new.db")
# Functions that a comparison calls after the program has answered, by their modules.
PLACES = {
    "judging": "changes.judged.Judged._values",
    "severity": "changes.severity.Severity.rank",
    "brief": "show.brief.brief",
    "mail": "mail.text.end_lines",
    "subject": "commands.mail.subject_of",
    "notes": "commands.mail.notes_of",
    "page": "show.page.heading_of",
    "state": "compare.state.State.text",
    "result": "compare.comparison.Comparison.state",
    "former state": "commands.mail.read_state",
}


def failing(error: Exception) -> Callable[..., NoReturn]:
    def fail(*_: object, **__: object) -> NoReturn:
        raise error

    return fail


ERROR = KeyError("an odd key")
SAID = b"a fault of this command: KeyError: 'an odd key' (commands/test_mistakes.py:"
# In these a mail says the changes by their severities all the same.
JUDGED = "page.state"
# In these nothing is known of the changes when the mail is made.
UNKNOWN = ("mail", "subject", "notes", "result", "former state")


class MistakesTest(CommandTest):
    def setUp(self) -> None:
        super().setUp()
        mail.prepare(self)

    def plant(self, label: str, error: Exception = ERROR) -> None:
        """Makes the function of this label fail in each command of the test."""
        self.patches.clear()
        self.patch(PLACES[label], failing(error))

    def test_mail(self) -> None:
        """The mail leaves with what differs, as far as it is known, and with the cause."""
        for label in PLACES:
            self.plant(label)
            self.write("state", b"")
            os.remove(self.path("state"))
            self.call("aide-compare", *PAIR, "--state", "state")
            answer = mail.call(self, "--attach-page", "--state", "state", *PAIR)
            self.expect(label, answer, 18, b"")
            sent = mail.sent(self)
            with self.subTest(label):
                self.assertIn("failure (status 18)", subject(sent) or "")
                text = body(sent)
                self.assertIn(b"KeyError", text)
                is_known = label not in UNKNOWN
                self.assertEqual(b"  changed  /c" in text, is_known, text)
                self.assertEqual(b"there is no page" in text, is_known, text)
                self.assertEqual(b"could not be judged" in text, is_known and label not in JUDGED)

    def test_state(self) -> None:
        """The state says it, and never what it said before; if none can be made, there is none."""
        for label in PLACES:
            if label in ("mail", "subject", "notes", "former state"):
                continue
            self.plant(label)
            self.call("aide-compare status", "--state", "state")
            self.patches.clear()
            self.answered(7, None, None, "aide-compare", "--state", "state", *PAIR)
            self.plant(label)
            words = ("--state", "state", "--page", "page.html", *PAIR)
            self.answered(18, None, SAID, "aide-compare", *words)
            kept = self.state()
            with self.subTest(label):
                self.assertFalse(os.path.exists(self.path("page.html")))
                if label == "state":
                    self.assertEqual(kept, {})
                else:
                    self.assertEqual((kept["status"], kept["added"]), ("18", ""))
                    self.assertIn("KeyError", kept["error"])

    def test_screen(self) -> None:
        """People read the first paths, unless they have read all before."""
        for label, title in (
            ("judging", b"The databases differ: 1 added, 1 removed, 2 changed."),
            ("brief", b"The databases differ: 1 added, 1 removed, 2 changed."),
        ):
            self.plant(label)
            self.answered(18, [title, b"  removed  /b\n"], SAID, "aide-compare", *PAIR)
        self.plant("judging")
        self.answered(18, b"", SAID, "aide-compare", "-q", *PAIR)

    def test_traceback(self) -> None:
        """A variable has it printed, once, without a byte of others that a terminal obeys."""
        self.plant("brief", ValueError("an odd\x1b[31m\ntext"))
        debug = {"AIDE_COMPARE_DEBUG": "1"}
        said = b"a fault of this command: ValueError: an odd\\033[31m\\012text (commands/"
        errors = self.answered(18, None, said, "aide-compare", *PAIR, environment=debug).errors
        self.assertEqual(errors.count(b"Traceback (most recent call last)"), 1, errors)
        self.assertRegex(errors, rb'aide-compare:   File "[^"]+/commands/compare\.py", line \d+')
        self.assertNotIn(b"\x1b", errors)
        others: list[dict[str, str]] = [{}, {"AIDE_COMPARE_DEBUG": "0"}]
        for environment in others:
            errors = self.call("aide-compare", *PAIR, environment=environment).errors
            self.assertNotIn(b"Traceback", errors)
