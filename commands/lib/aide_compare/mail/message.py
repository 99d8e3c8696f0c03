"""The mails of aide-compare mail: headers, parts and subjects."""
from __future__ import annotations

import os
import re
import time
from collections.abc import Sequence

from aide_compare.base.escapes import encoded, shown_lines
from aide_compare.base.words import KINDS
from aide_compare.compare.state import State, not_compared

# A longer line needs quoted-printable, whose lines have the length of the policy.
MAX_LINE = 990
MAX_FIRST_LINES = 25
MAX_FIRST_BYTES = 1 << 13  # Of headers and first lines. Some messages take hours to read.
PAGE_NAME = "changes.html"


def host_name() -> str:
    """The name of this machine, with only those bytes that a subject may have."""
    return re.sub(r"[^A-Za-z0-9._-]", "", os.uname().nodename)[:200] or "unknown"


def subject_of(state: State, columns: Sequence[str] = (), warnings: Sequence[str] = ()) -> str:
    """`columns`: the names of those that are not compared, if this mail is the first one that says
    so. `warnings`: what is mailed even if nothing differs."""
    parts = []
    if state.standings and state.status:
        parts.append(state.standings.words())
    elif 1 <= state.status <= 7:
        counts = [f"{count} {kind}" for count, kind in zip(state.counts or (), KINDS) if count]
        parts.append(f"differences ({', '.join(counts)})")
    elif state.status:
        parts.append(f"failure (status {state.status})")
    if warnings:
        parts.append("what decides on reports was changed")
    if columns:
        parts.append(not_compared([re.sub(r"[^A-Za-z0-9._#-]", "?", name) for name in columns]))
    return f"aide on {host_name()}: {'; '.join(parts)}"


def clean(text: str | bytes) -> bytes:
    """The bytes of lines for a mail, in which all bytes of others are escaped."""
    return encoded(shown_lines(text))


def encoding_of(data: bytes) -> str:
    """How a part is encoded: lines that are too long for mail need quoted-printable."""
    if b"\0" in data or b"\r" in data or any(len(line) > MAX_LINE for line in data.split(b"\n")):
        return "quoted-printable"
    return "8bit"


def build(address: str, subject: str, text: bytes, page: bytes | None = None) -> bytes:
    """The bytes of a mail: a text, to which its page may be attached."""
    # 10 ms that a night without a mail does not need; and email.policy would take 3 more.
    from email.contentmanager import raw_data_manager
    from email.message import EmailMessage, Message

    # Each header is ASCII of our own, and is written as it is, in one line: an address may be
    # anything that the mail system of this machine knows, also what is none by RFC 5322.
    policy = Message().policy.clone(max_line_length=76, mangle_from_=False)
    message = EmailMessage(policy=policy)
    message["To"] = address
    message["Subject"] = subject
    message["Date"] = time.strftime("%a, %d %b %Y %H:%M:%S +0000", time.gmtime())
    message["Auto-Submitted"] = "auto-generated"
    message["MIME-Version"] = "1.0"
    message.set_content(
        text.decode("utf-8", "replace"), cte=encoding_of(text), content_manager=raw_data_manager
    )
    if page is not None:
        message.add_attachment(
            page.decode("utf-8", "replace"),
            subtype="html",
            filename=PAGE_NAME,
            cte=encoding_of(page),
            content_manager=raw_data_manager,
        )
    return message.as_bytes(policy=policy.clone(max_line_length=None))


def shortened(message: bytes, why: str) -> bytes:
    """A short mail in the place of one that was refused: its headers, its first lines, and the
    reason. It is made of the whole one, since that is all that a queue has."""
    import email

    whole = email.message_from_bytes(message[:MAX_FIRST_BYTES])
    texts = (part for part in whole.walk() if part.get_content_type() == "text/plain")
    data = bytes(next(texts, whole).get_payload(decode=True) or b"")
    lines = data.split(b"\n")[:MAX_FIRST_LINES]
    reason = f"The mail of {len(message)} bytes was refused: {why}\n"
    text = clean(f"{reason}The first lines of it:\n\n") + clean(b"\n".join(lines) + b"\n")
    return build(str(whole["To"]), str(whole["Subject"]), text)
