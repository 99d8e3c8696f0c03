"""Bytes of others as people may see them. Every command that shows such bytes uses `shown` or
`shown_lines`, so that nothing is invisible or changes what stands around it. A page gets texts that
are escaped so.

Escaped, as a backslash and three octal digits for each byte, as paths are in reports: control bytes
and the backslash, bytes that are no UTF-8, and what a terminal or a reader obeys in place of
showing it: the controls U+0080 to U+009F, the separators of lines and paragraphs, all format
controls, such as those that turn the direction of text, and what nobody sees.
"""
from __future__ import annotations

import re

# Control bytes, bytes that are no UTF-8 (U+DC80 to U+DCFF), the characters of the category Cf and
# of Default_Ignorable_Code_Point (Unicode 15), the separators of the categories Zl and Zp, and the
# blank pattern of Braille.
_UNSEEN = (
    "\0-\x1f\x7f-\x9f\xad\u034f\u0600-\u0605\u061c\u06dd\u070f\u0890-\u0891\u08e2\u115f-\u1160"
    "\u17b4-\u17b5\u180b-\u180f\u200b-\u200f\u2028-\u202e\u2060-\u206f\u2800\u3164\udc80-\udcff"
    "\ufe00-\ufe0f\ufeff\uffa0\ufff0-\ufffb\U000110bd\U000110cd\U00013430-\U0001343f"
    "\U0001bca0-\U0001bca3\U0001d173-\U0001d17a\U000e0000-\U000e0fff"
)
# Each byte as a backslash and three octal digits.
_OCTAL = [f"\\{byte:03o}" for byte in range(256)]


def _with_escapes(text: str, kept: str = "") -> str:
    """A text in which each character is escaped that needs it, but for some."""

    def escape(match: re.Match[str]) -> str:
        letter = match.group()
        if letter in kept:
            return letter
        return "".join([_OCTAL[byte] for byte in _bytes_of(letter)])

    return re.sub(rf"[\\{_UNSEEN}]", escape, text)


def _is_plain(text: str) -> bool:
    """Whether no character is escaped, but perhaps the backslash: so most names are."""
    return text.isascii() and text.isprintable()


def _bytes_of(text: str | bytes | bytearray | memoryview) -> bytes:
    """The bytes that a text means. A surrogate that means no byte becomes three bytes, which are no
    UTF-8."""
    if not isinstance(text, str):
        return bytes(text)
    try:
        return text.encode("utf-8", "surrogateescape")
    except UnicodeEncodeError:
        return b"".join(_bytes_of_letter(letter) for letter in text)


def _bytes_of_letter(letter: str) -> bytes:
    if "\udc80" <= letter <= "\udcff":
        return letter.encode("utf-8", "surrogateescape")
    return letter.encode("utf-8", "surrogatepass")


def shown(text: str | bytes, limit: int = 5000) -> str:
    """Bytes or text of others in one line, cut after so many characters with "..."."""
    if not isinstance(text, str):
        text = text[: 4 * limit + 4].decode("utf-8", "surrogateescape")
    if len(text) <= limit and _is_plain(text) and "\\" not in text:
        return text
    letters = _bytes_of(text[: 4 * limit + 4]).decode("utf-8", "surrogateescape")
    line = _with_escapes(letters[:limit])
    if len(letters) > limit:
        line += "..."
    return line


def encoded(text: str) -> bytes:
    """The bytes of a text for people. What UTF-8 does not have is escaped."""
    return text.encode("utf-8", "backslashreplace")


def unshown(text: bytes) -> bytes:
    """The bytes that `shown` has escaped in a text."""
    return re.sub(rb"\\([0-3][0-7]{2})", lambda match: bytes([int(match[1], 8)]), text)


def guarded(text: str) -> str:
    """A line of ours in which names are `shown` already: all else that is escaped, but not the
    backslash."""
    if _is_plain(text):
        return text
    return shown_lines(text, "\\")


def shown_lines(data: str | bytes | bytearray, kept: str = "\\\t\n") -> str:
    """Whole lines: newlines and tabs stay, and backslashes, since the reports and error lines have
    escapes of their own."""
    return _with_escapes(_bytes_of(data).decode("utf-8", "surrogateescape"), kept)
