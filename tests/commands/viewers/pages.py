"""What a page shows, read by the script of the page itself in node; and its style."""
from __future__ import annotations

import json
import os
import re
import shutil
import subprocess
import tempfile
from typing import Any

HERE = os.path.dirname(os.path.abspath(__file__))
CASES = os.path.join(HERE, "views.json")
ESCAPE = re.compile(r"\\([0-7]{3})")
HAS_NODE = shutil.which("node") is not None


def seen(page: bytes) -> Any:
    """What the script makes of a page."""
    with tempfile.NamedTemporaryFile() as file:
        file.write(page)
        file.flush()
        words = ["node", os.path.join(HERE, "in_node.js"), file.name]
        done = subprocess.run(words, stdout=subprocess.PIPE, check=True, timeout=300)
    return json.loads(done.stdout)


def data_in(page: bytes | str) -> Any:
    """The data of a page: its rows and its heading."""
    text = page if isinstance(page, str) else page.decode()
    data = text.partition('<script id="data" type="application/json">')[2]
    return json.loads(data.partition("</script>")[0])


def heads_in(page: bytes | str) -> list[Any]:
    """What is always there of each change of a page."""
    return [row[0] for row in data_in(page)["rows"]]


def bytes_shown(text: str) -> bytes:
    """The bytes that a page shows as a text."""
    parts = ESCAPE.split(text)
    return b"".join(
        bytes([int(part, 8)]) if index % 2 else part.encode() for index, part in enumerate(parts)
    )
