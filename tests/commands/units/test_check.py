"""Which level the check for Nagios has, by the counts of a state and the limits asked for."""
from __future__ import annotations

from typing import Any
from unittest import mock

from tests.commands.units.calls import ModuleTest

from aide_compare.base.kinds import alarm_limit
from aide_compare.commands import status as status_command
from aide_compare.compare.state import DAILY
from aide_compare.lines.change import Counts
from aide_compare.show import check

SILENT = Counts(same=1)
LOW = Counts(recorded=1, recorded_low=1)
MEDIUM = Counts(recorded=2, recorded_low=1, recorded_medium=1)
HIGH = Counts(recorded=1, recorded_high=1)
OPEN = Counts(open=2, open_low=1, open_medium=1)
OPEN_HIGH = Counts(open=1, open_high=1)
OK, WARNING, CRITICAL, UNKNOWN = range(4)
ROWS: tuple[tuple[int, int, Counts | None, dict[str, str]], ...] = (
    (OK, 0, None, {}),
    (CRITICAL, 1, None, {}),
    (CRITICAL, 7, None, {"warning": "9"}),
    (UNKNOWN, 8, SILENT, {}),
    (UNKNOWN, 18, None, {}),
    (OK, 7, SILENT, {}),
    (WARNING, 7, LOW, {}),
    (WARNING, 7, HIGH, {}),
    (WARNING, 7, OPEN, {}),
    (CRITICAL, 7, OPEN_HIGH, {}),
    (CRITICAL, 7, OPEN, {"critical": "1"}),
    (CRITICAL, 7, OPEN, {"critical": "medium"}),
    (WARNING, 4, LOW, {"critical": "medium"}),
    (CRITICAL, 4, MEDIUM, {"critical": "medium"}),
    (CRITICAL, 4, HIGH, {"critical": "medium"}),
    (WARNING, 4, MEDIUM, {"critical": "high"}),
    (CRITICAL, 4, LOW, {"critical": "low"}),
    (OK, 4, LOW, {"warning": "2"}),
    (WARNING, 4, MEDIUM, {"warning": "2"}),
    (OK, 4, LOW, {"warning": "high"}),
    (WARNING, 4, HIGH, {"warning": "high"}),
    (OK, 4, OPEN, {"warning": "high", "critical": "high"}),
)


def level(status: int, counts: Counts | None, words: dict[str, str]) -> int:
    limits = {name: words.get(name) for name in ("warning", "critical")}
    asked = {name: alarm_limit(limit) if limit else None for name, limit in limits.items()}
    state: Any = mock.Mock(status=status, standings=counts)
    return check.level_of(state, **asked)


class CheckTest(ModuleTest):
    def test_levels(self) -> None:
        for want, *given in ROWS:
            self.gives(want, level, *given)

    def test_line(self) -> None:
        """Whatever fails is UNKNOWN, in a line of bounded length."""
        with mock.patch.object(status_command, "tell") as told:
            self.gives(UNKNOWN, status_command.check, ["--state", "x" * 500])
            line = f"AIDE UNKNOWN: cannot open the state file {'x' * 500}"
            cut = line[: len("AIDE UNKNOWN: ") + 300] + "..."
            self.assertEqual(told.call_args[0][0], cut)
        answer = check.Answer(check.Level.OK, "a <img src=x|y>", "n=1")
        self.assertEqual(answer.line(), "AIDE OK: a (img src=x!y>|n=1")
        self.assertEqual(status_command.request_of(["--no-defaults"], {}).state, DAILY)
