"""The builds for newer processors: both at a time, and each counted by its name."""
from __future__ import annotations

import io
import threading
import unittest
from contextlib import redirect_stdout
from unittest import mock

from tests.lib.tally import Tally
from tools.gate import second_builds


class SecondBuilds(unittest.TestCase):
    def test_side_by_side(self) -> None:
        """Each waits for the other one to begin."""
        both = threading.Barrier(2, timeout=30)

        def build(crate: str, _: object) -> list[str]:
            both.wait()
            return ["it was not linked"] if crate == "aide" else []

        tally = Tally()
        printed = io.StringIO()
        builds = mock.patch.object(second_builds, "build", build)
        two = mock.patch.object(second_builds, "jobs", lambda _: 2)
        with builds, two, redirect_stdout(printed):
            second_builds.build_all(tally)
        self.assertEqual((tally.passed, tally.failed), (1, 1))
        self.assertEqual(printed.getvalue(), "aide-v3: it was not linked\n")
