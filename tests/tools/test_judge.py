"""What the judge of wrong bodies says: of bodies that are wrong, of those that are not, of texts
that cannot be planted, and of checks that do not end."""
from __future__ import annotations

import contextlib
import io
import os
import shutil
import unittest
from unittest import mock

from tests.lib.scratch import Scratch
from tests.lib.tally import Tally
from tools.gate import judge
from tools.gate.edits import BadEdit, Edit, Function, Change, function_at, groups_of, read
from tools.source import checker

ROOT = """//! Numbers.
#![tactic(auto)]

mod hidden;
mod numbers;

pub use hidden::next;
pub use numbers::{greater, same};
"""
NUMBERS = """//! Numbers as they are.
ghost use Rattle.std.specs.Prelude.{◌≡◌, max};

/// The number.
pub fn same(x: u64) -> u64
    ensures { result ≡ x }
{
    x
}

/// The greater number.
pub fn greater(a: u64, b: u64) -> u64
    ensures { result ≡ max a b }
{
    if a < b { b } else { a }
}
"""
HIDDEN = """//! A function that only this module may call.
ghost use Rattle.std.specs.Prelude.{◌≡◌};

/// Nought.
fn nought() -> u64
    ensures { result ≡ 0 }
{
    0
}

/// Nought, by another name.
pub fn next() -> u64
    ensures { result ≡ 0 }
{
    nought()
}
"""
NOUGHT = ("src/numbers.rt", "    x", "    0")
LESSER = ("src/numbers.rt", "{ b } else { a }", "{ a } else { b }")
NO_CHANGE = ("src/numbers.rt", "if a < b", "if a <= b")
DOES_NOT_FIT = ("src/numbers.rt", "if a > b", "if a < b")
OF_ANOTHER_MODULE = ("src/numbers.rt", "    x", "    crate::hidden::nought()")
# In place of the checker: it checks the first time, and later does something else.
STUMBLING = """#!/bin/sh
if [ -e {first} ]; then
    {later}
fi
touch {first}
exec {checker} "$@"
"""


class Edits(unittest.TestCase):
    """How edits are read, placed and grouped."""

    def setUp(self) -> None:
        self.scratch = Scratch()
        self.scratch.make()
        self.addCleanup(shutil.rmtree, self.scratch.root)

    def test_pair_without_a_file_is_refused(self) -> None:
        path = self.scratch.write("odd.edit", "old: a\nnew: b\n")
        with self.assertRaises(BadEdit):
            read("small", path)

    def test_text_behind_the_words_is_taken_as_it_is(self) -> None:
        path = self.scratch.write("odd.edit", "file: src/lib.rt\nold:     a: b\nnew:\n")
        self.assertEqual(
            read("small", path), Edit("small", "odd", (Change("src/lib.rt", "    a: b", ""),))
        )

    def test_place_is_a_function_a_method_or_neither(self) -> None:
        text = "impl<'a, R: Read<u8>> fmt::Display for Wide<'a, R> {\n    fn fmt() {\n        1\n"
        self.assertEqual(
            function_at("src/a.rt", text, text.index("1")),
            Function("src/a.rt", "Wide", "Display", "fmt"),
        )
        text = "impl<'a> Reel for &'a [u8] {\n    fn read() {\n        1\n"
        self.assertEqual(
            function_at("src/a.rt", text, text.index("1")),
            Function("src/a.rt", "RefSliceU8", "Reel", "read"),
        )
        text = "impl Wide {\n    pub fn own() {\n    }\n}\n\nconst MOST: u64 = 1;\n"
        self.assertIsNone(function_at("src/a.rt", text, text.index("1")))

    def test_checker_calls_functions_by_module_type_and_trait(self) -> None:
        method = Function("src/a/b.rt", "Wide", "", "own")
        self.assertTrue(method.is_named("c::Wide::own"))
        self.assertTrue(method.is_named("c::fn::Wide::own::find+FnMut::call_mut"))
        self.assertFalse(method.is_named("c::WideBuilder::own"))
        self.assertTrue(
            Function("src/b.rt", "Wide", "From", "from").is_named("b::WideFromU8::from")
        )
        self.assertFalse(Function("src/b.rt", "", "", "own").is_named("c::own"))

    def test_edits_of_one_function_are_in_groups_of_their_own(self) -> None:
        self.scratch.write("src/numbers.rt", NUMBERS)
        same, greater = (Function("src/numbers.rt", "", "", name) for name in ("same", "greater"))
        changes = [(NOUGHT, same), (OF_ANOTHER_MODULE, same), (LESSER, greater)]
        edits = [
            (Edit("small", str(number), (Change(*change),)), frozenset([function]))
            for number, (change, function) in enumerate(changes)
        ]
        definition = Edit("small", "3", (Change("src/numbers.rt", "Numbers", "Other numbers"),))
        groups = groups_of(self.scratch.root, [*edits, (definition, frozenset())])
        self.assertEqual(
            [[edit.name for edit, _ in group.edits] for group in groups], [["0", "2"], ["1"], ["3"]]
        )


class Words(unittest.TestCase):
    """Which goals count, by what the checker says of functions."""

    OPEN = "no proof: expected answers in ./proofs/a/own/Answers.antt; `search` did not prove `one`"
    MISFIT = "not proved; it stands on `Rattle.small.proofs.a.own.Answers.two`, which antt refuses"
    OF_ANOTHER = MISFIT.replace("own", "other")
    CALLS = "no proof: it calls `small::a::other`, which is not proved"

    def ways(self, words: str, right: str | None = None) -> list[str]:
        judged = judge.Judged(True, False, {"a::own": words}, "")
        of_right = None if right is None else judge.Judged(True, False, {"a::own": right}, "")
        return judge.ways_of(judged, ["a::own"], of_right)

    def test_open_goal_says_more_than_an_answer_that_does_not_fit(self) -> None:
        self.assertEqual(self.ways(f"{self.OPEN}; {self.MISFIT}"), ["a::own: open: one"])
        self.assertEqual(self.ways(self.MISFIT), ["a::own: an answer no longer fits: two"])

    def test_what_belongs_to_another_function_does_not_count(self) -> None:
        for words in (self.CALLS, self.OF_ANOTHER, "no holes", "proved", ""):
            with self.subTest(words):
                self.assertEqual(self.ways(words), [])

    def test_without_answers_only_goals_count_that_the_right_body_leaves_closed(self) -> None:
        both = self.OPEN + ", `two`"
        self.assertEqual(self.ways(both, self.OPEN), ["a::own: open: two"])
        self.assertEqual(self.ways(self.OPEN, self.OPEN), [])
        self.assertEqual(self.ways(self.MISFIT, self.OPEN), [])


@unittest.skipUnless(shutil.which("rt"), "not installed: rt")
@unittest.skipIf(os.environ.get("AIDE_QUICK"), "it takes long")
class Judge(unittest.TestCase):
    """What is said of the edits of a small crate."""

    def setUp(self) -> None:
        self.scratch = Scratch()
        self.scratch.make()
        self.addCleanup(shutil.rmtree, self.scratch.root)
        self.scratch.write("crates.txt", "small:\n")
        self.scratch.write("crates/small/src/lib.rt", ROOT)
        self.scratch.write("crates/small/src/numbers.rt", NUMBERS)
        self.scratch.write("crates/small/src/hidden.rt", HIDDEN)
        for module in (judge, checker):
            patch = mock.patch.object(module, "TOP", self.scratch.root)
            patch.start()
            self.addCleanup(patch.stop)

    def judge(self, **edits: tuple[str, str, str]) -> tuple[Tally, str]:
        """Counts what was refused, and what was printed."""
        for name, (path, old, new) in edits.items():
            self.scratch.write(
                f"crates/small/wrong/{name}.edit", f"file: {path}\nold: {old}\nnew: {new}\n"
            )
        tally = Tally()
        with contextlib.redirect_stdout(io.StringIO()) as printed:
            judge.judge_all(tally, 2, judge.in_turn())
        return tally, printed.getvalue()

    def stumble(self, later: str) -> None:
        """Has the checker do this from its second run on."""
        kit = checker.kit()
        for name in ("rlibs", "rattle", "logic_built"):
            os.symlink(os.path.join(kit, name), self.scratch.path(name))
        text = STUMBLING.format(
            first=self.scratch.path("first"), later=later, checker=f"{kit}/bin/rattle"
        )
        self.scratch.write("bin/rattle", text, 0o755)
        patch = mock.patch("tools.gate.judge.kit", return_value=self.scratch.root)
        patch.start()
        self.addCleanup(patch.stop)

    def test_change_that_changes_nothing_and_one_that_does_not_fit_have_failed(self) -> None:
        tally, printed = self.judge(nought=NOUGHT, no_change=NO_CHANGE, does_not_fit=DOES_NOT_FIT)
        self.assertEqual((tally.passed, tally.failed), (1, 2), printed)
        self.assertIn("small/nought: numbers::same: open: returns", printed)
        self.assertIn("small/no_change: NOT REFUSED", printed)
        self.assertIn("small/does_not_fit: BAD EDIT", printed)

    def test_text_that_the_checker_refuses_whole_fails_alone(self) -> None:
        tally, printed = self.judge(lesser=LESSER, of_another_module=OF_ANOTHER_MODULE)
        self.assertEqual((tally.passed, tally.failed), (1, 1), printed)
        self.assertIn("small/lesser: numbers::greater: open: returns", printed)
        self.assertIn("small/of_another_module: NOT JUDGED", printed)

    def test_crate_that_is_not_proved_fails_with_its_edits(self) -> None:
        self.scratch.write("crates/small/src/hidden.rt", HIDDEN.replace("result ≡ 0", "result ≡ 1"))
        tally, printed = self.judge(nought=NOUGHT)
        self.assertEqual((tally.passed, tally.failed), (0, 1), printed)
        self.assertIn("small/nought: its crate is not proved", printed)

    def test_check_that_is_killed_fails_with_its_edits(self) -> None:
        self.stumble("echo 'fn small::numbers::same: not proved'; kill -9 $$")
        tally, printed = self.judge(nought=NOUGHT, lesser=LESSER)
        self.assertEqual((tally.passed, tally.failed), (0, 2), printed)
        self.assertIn("small/nought: NOT JUDGED", printed)
        self.assertIn("small/lesser: NOT JUDGED", printed)

    def test_check_without_memory_fails_with_its_edits(self) -> None:
        self.stumble("ulimit -v 100000")
        tally, printed = self.judge(nought=NOUGHT)
        self.assertEqual((tally.passed, tally.failed), (0, 1), printed)
        self.assertIn("small/nought: NOT JUDGED", printed)
