"""Lines, fields and printed names, as configurations, databases and reports have them."""
from __future__ import annotations

import re

BLANKS = b" \t"


def lines_of(text: bytes) -> list[bytes]:
    """A text cut at each newline; an empty last piece is no line."""
    lines = text.split(b"\n")
    return lines[:-1] if lines[-1] == b"" else lines


def fields_of(line: bytes) -> list[bytes]:
    return [field for field in re.split(rb"[ \t]+", line) if field]


def printed(name: bytes) -> bytes:
    """A name as it is printed: control bytes and the backslash by three octal digits."""
    return b"".join(
        b"\\%03o" % byte if byte < 32 or byte in (92, 127) else bytes([byte]) for byte in name
    )


def pieces_of(text: bytes) -> list[bytes]:
    """A text cut into pieces of 32 bytes, the last one shorter."""
    return [text[index : index + 32] for index in range(0, len(text), 32)]
