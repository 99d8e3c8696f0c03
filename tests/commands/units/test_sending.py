"""How sendmail ends and what it says, the line in the system log, and mails that wait."""
from __future__ import annotations

import os
from functools import partial
from unittest import mock

from tests.commands.mail import logging
from tests.commands.units.calls import OTHER, ModuleTest

from aide_compare.base.directories import names_in, open_directory
from aide_compare.mail import sending

MAIL = b"To: root\nSubject: x\n\nbody\n"


class SendingTest(ModuleTest):
    def mailer(self, body: str) -> str:
        path = self.write("sendmail", f"#!/bin/sh\n{body}\n".encode())
        os.chmod(path, 0o755)
        return path

    def test_ends(self) -> None:
        for body, why in (
            ("echo one; echo two >&2; echo; exit 3", "status 3 of sendmail: two"),
            ("exit 75", "status 75 of sendmail: it gave no reason"),
            ("kill -9 $$", "status 137 of sendmail: it gave no reason"),
            ("exec sleep 9", "sendmail did not end within 1 seconds: it gave no reason"),
            ("printf %0400d 1; exit 1", f"status 1 of sendmail: {'0' * 300}..."),
            # Of what it says, 64 KiB are kept.
            ("printf '%065533d\\nb\\n' 1; echo c; exit 1", "status 1 of sendmail: b"),
        ):
            self.fails(18, why, sending.by_sendmail, self.mailer(body), 1, b"x")

    def test_alert(self) -> None:
        with mock.patch.object(sending, "LOG", self.path("log")), logging(self) as lines:
            self.gives(True, sending.alert, "x" * 801)
        self.assertEqual(lines, [b"<33>aide-compare mail: %s..." % (b"x" * 800)])

    def test_no_process(self) -> None:
        """The system log has a line also if no process is left for the mail."""
        full = mock.Mock(side_effect=OSError(24, "Too many open files"))
        said = "nothing can be started to send it: Too many open files; the system log has a line"
        with mock.patch.object(sending, "LOG", self.path("log")), logging(self) as lines:
            with mock.patch.multiple(os, pipe=full, fork=full):
                self.fails(18, said, sending.deliver, partial(sending.by_sendmail, "no", 5), MAIL)
        self.assertTrue(lines[0].startswith(b"<33>aide-compare mail: no mail could be sent"), lines)

    def test_waiting(self) -> None:
        """Only a mail that this user has put there is sent, and none that is too large."""
        for name in (".b.mail", "a.mail.part", "a.mail"):
            self.write(name, b"text")
        with open_directory(self.root) as directory:
            self.gives(["a.mail"], names_in, directory, ".mail")
            with mock.patch.object(sending, "MAX_MAIL_BYTES", 4):
                self.gives(b"text", sending.waiting_mail, directory, "a.mail")
                self.write("b.mail", b"texts")
                self.fails(18, "is no mail", sending.waiting_mail, directory, "b.mail")
            with self.subTest("another user's mail"):
                self.needs_root()
                os.chown(self.path("a.mail"), OTHER, OTHER)
                self.fails(18, "is no mail", sending.waiting_mail, directory, "a.mail")
        self.gives(None, sending.send_all, self.path("none"), None)  # Nothing has waited yet.
