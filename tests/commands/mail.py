"""Mail that the tests of the commands take from a sendmail of their own."""
from __future__ import annotations

import contextlib
import email
import os
import socket
from collections.abc import Iterator
from email.message import Message
from typing import Any

from tests.lib.answer import Answer
from tests.lib.program_test import ScratchTest

from .sandbox import CommandTest, END, HEAD

TOOL = "aide-compare mail"
SUBJECT = "aide on %s: " % "".join(
    letter for letter in os.uname().nodename if letter.isalnum() or letter in "._-"
)
COUNTS = "4 open of 4 changes"


def prepare(sandbox: CommandTest) -> None:
    """Other places of the logs; a sendmail that keeps the mail; and an empty database."""
    sandbox.set_names("mail.sending", LOG=sandbox.path("log"), JOURNAL=sandbox.path("journal"))
    take_mail(sandbox)
    sandbox.write("empty.db", HEAD + END)


def take_mail(sandbox: CommandTest, before: str = "") -> None:
    words, mail = sandbox.path("words"), sandbox.path("sent")
    keep = f'echo "$*" > "{words}"; cat > "{mail}.part" && mv "{mail}.part" "{mail}"'
    sandbox.stub("sendmail", f"{before} {keep}")


def call(sandbox: CommandTest, *words: str, **more: Any) -> Answer:
    return sandbox.call(TOOL, *words, **more)


def sent(sandbox: CommandTest) -> Message | None:
    """The mail that went out, or None; it is taken away."""
    if not os.path.exists(sandbox.path("sent")):
        return None
    text = sandbox.read("sent")
    os.remove(sandbox.path("sent"))
    is_sound = max(map(len, text.split(b"\n"))) <= 998 and b"\r" not in text and b"\0" not in text
    sandbox.holds("the lines of a mail", is_sound)
    return email.message_from_bytes(text)


def body(message: Message | None) -> bytes:
    """The text of a mail, that of its first part if it has several."""
    while message is not None and message.is_multipart():
        first: Any = message.get_payload(0)
        message = first
    data: Any = message.get_payload(decode=True) if message is not None else b""
    return bytes(data)


def subject(message: Message | None) -> Any:
    return message["Subject"] if message is not None else None


def words_of(text: bytes) -> str:
    """A text as a shell reads it, whose lines go on after a backslash."""
    return " ".join(text.decode().replace("\\\n", " ").split())


def check_size(sandbox: CommandTest, label: str, text: bytes) -> None:
    """A mail is read in one go: 80 lines of 80 columns, but for words without a blank."""
    lines = text.decode().splitlines()
    long = [line for line in lines if len(line) > 80 and " " in line.strip(" \\")]
    sandbox.holds("the lines of %s" % label, len(lines) <= 80 and not long, (len(lines), long))


def many(path: bytes, count: int) -> bytes:
    """A database of so many files, of which the number is a part of the path."""
    return HEAD + b"".join(b"%s 36 100644 1\n" % (path % at) for at in range(count)) + END


@contextlib.contextmanager
def logging(sandbox: ScratchTest, name: str = "log") -> Iterator[list[bytes]]:
    """The system log, or the journal; afterwards the list has the first line that it got."""
    lines: list[bytes] = []
    with socket.socket(socket.AF_UNIX, socket.SOCK_DGRAM) as log:
        log.bind(sandbox.path(name))
        log.settimeout(5)
        yield lines
        try:
            lines.append(log.recv(10000))
        except socket.timeout:
            lines.append(b"")
    os.remove(sandbox.path(name))


class MailTest(CommandTest):
    def setUp(self) -> None:
        super().setUp()
        prepare(self)

    def mail(self, *words: str, status: int = 7, **more: Any) -> Message | None:
        """The mail of a command that ends with this status, and prints nothing."""
        self.expect("a mail by %r" % (words,), call(self, *words, **more), status, b"", b"")
        return sent(self)

    def fails(self, label: str, words: tuple[str, ...], *errors: bytes) -> None:
        """No mail goes out, and the command ends with 18 and these errors."""
        self.expect(label, call(self, *words), 18, b"", [*errors])
        self.assertIsNone(sent(self), label)
