"""State files that the tests write, of which commands then tell."""
from __future__ import annotations

import json
import time
from typing import Any

from tests.lib.answer import Answer

from .sandbox import CommandTest

ZERO: dict[str, Any] = {
    "status": 0,
    "added": 0,
    "removed": 0,
    "changed": 0,
    "old": "/o",
    "new": "/n",
}
NOTHING: dict[str, Any] = {"added": None, "removed": None, "changed": None}


def state_text(**values: Any) -> bytes:
    """A state file with these values, and one of which nobody knows."""
    known = {"format": 3, **ZERO, "old_sha256": "", "new_sha256": "", "error": "", **values}
    return json.dumps({**known, "later": "unknown"}).encode() + b"\n"


class StateTest(CommandTest):
    def put(self, age: int = 60, **more: Any) -> str:
        """Writes a state of so many seconds ago. Returns its path."""
        return self.write(
            "state", state_text(**{"new_sha256": "a" * 64, "time": int(time.time()) - age, **more})
        )

    def ask(self, tool: str, *words: str, **more: Any) -> Answer:
        return self.call(tool, "--state", "state", *words, **more)
