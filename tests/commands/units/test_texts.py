"""Escapes, times, the command line, the state file, statuses, and how a command ends."""
from __future__ import annotations

import argparse
import json
import os
import subprocess
import sys

from tests.lib.scratch import TOP
from tests.commands.units.calls import ModuleTest

from aide_compare.base import ending, escapes, kinds, words
from aide_compare.compare import state
from aide_compare.lines import attributes
from aide_compare.lines.change import Change, Counts, Value, Values, change_of
from aide_compare.show import entry
from aide_compare.show.page import shown_value

ESCAPED: tuple[tuple[str | bytes, str], ...] = (
    (b"a b", "a b"),
    (b"a\\b", r"a\134b"),
    ("a\\b", r"a\134b"),
    (b"\n\x1b\x7f\\", r"\012\033\177\134"),
    (b"\x80\xff\xc3", r"\200\377\303"),
    ("é\U0001f600", "é\U0001f600"),
    ("\x9b", r"\302\233"),
    ("\u202e\u2066\u200f\u061c", r"\342\200\256\342\201\246\342\200\217\330\234"),
    ("\u2028\u2029", r"\342\200\250\342\200\251"),
    ("\udcff", r"\377"),
    ("\ud800\udcff", r"\355\240\200\377"),
    ("\u200b\u00ad\ufeff\U000e0041", r"\342\200\213\302\255\357\273\277\363\240\201\201"),
    ("\u034f\ufe0f\U000e0200", r"\315\217\357\270\217\363\240\210\200"),
    ("\u115f\u2800\u3164\uffa0", r"\341\205\237\342\240\200\343\205\244\357\276\240"),
)
TIMES = {"0": 0, "90": 90, "010": 10, "90s": 90, "15m": 900, "26h": 93600, "30d": 2592000}
NO_TIMES = (
    *("", "x", "h", "1h2", "1.5h", "-1", "+1", " 1", "1 ", "1_0", "\u0663"),
    *("31d", "721h", "2592001", "9" * 10),
)

# A shell's `&` starts commands that ignore some signals, which their children inherit.
END = """import signal, sys
signal.signal(signal.SIGINT, signal.default_int_handler)
sys.path.insert(0, %r)
from aide_compare.base.ending import *
import os
def main(arguments):
    %s
os._exit(command("name", main))"""


def change_between(old: Values | None, new: Values | None) -> Change:
    """The change of a file with these values, of which those that are the same are no change."""
    sides = {name: side for name, side in (("old", old), ("new", new)) if side is not None}
    kind = "changed"
    if old is not None and new is not None:
        same = old.items() & new.items()
        sides = {name: dict(side.items() - same) for name, side in sides.items()}
    else:
        kind = "added" if old is None else "removed"
    return change_of({"kind": kind, "path": "/a", "type": "File", **sides})


class TextsTest(ModuleTest):
    def test_values_of_a_page(self) -> None:
        """A script reads a number as one, if that is exact."""
        rows: list[tuple[Value, int | str]] = [
            (0, 0),
            (-5, -5),
            (2**53 - 1, 2**53 - 1),
            (2**53, "9007199254740992"),
            (None, "none"),
            ("0644", "0644"),
            (b"\xff", "\\377"),
        ]
        for value, shown_as in rows:
            self.gives(shown_as, shown_value, value)

    def test_tables(self) -> None:
        """The tables of attributes say the same: each digest is in the order of strength, in
        databases and in the schema."""
        labels = [label for label, form in attributes.FORMS.items() if form == "digest"]
        columns = sorted(label.lower().replace("-", "_").replace("/", "_") for label in labels)
        self.assertEqual(sorted(attributes.STRENGTH), sorted(labels))
        self.assertEqual(sorted(attributes.DIGEST_COLUMNS), columns)
        path = os.path.join(TOP, "contrib", "json", "aide-compare-lines.schema.json")
        with open(path, encoding="utf-8") as file:
            side = json.load(file)["$defs"]["side"]["properties"]
        names = [name for name in side if not name.endswith("_hex")]
        self.assertEqual(names, list(attributes.FORMS), "attributes of the schema")

    def test_escapes(self) -> None:
        for text, want in ESCAPED:
            self.gives(want, escapes.shown, text)
        self.gives("é" * 5 + "...", escapes.shown, "é" * 9, 5)
        self.gives("é" * 5, escapes.shown, "é" * 5, 5)
        self.gives("\U0001f600" * 8 + "...", escapes.shown, "\U0001f600".encode() * 9, 8)
        self.gives("a\\012\tb\n\\015\\033\\377", escapes.shown_lines, b"a\\012\tb\n\r\x1b\xff")
        self.gives("\\012\\012\\011\\342\\200\\256", escapes.guarded, "\\012\n\t\u202e")

    def test_times(self) -> None:
        for text, want in TIMES.items():
            self.gives(want, kinds.duration, text)
        for text in NO_TIMES:
            with self.subTest(text), self.assertRaises(argparse.ArgumentTypeError):
                kinds.duration(text)
        self.gives("2026-11-25T10:32:57Z", words.date_of, 1795602777)
        self.gives("@%d" % (1 << 62), words.date_of, 1 << 62)
        self.gives("2026-11-25 10:32 UTC", words.minute_of, 1795602777)
        self.gives("@%d" % (1 << 62), words.minute_of, 1 << 62)
        ages = {119: "119 seconds", 120: "2 minutes", 7199: "119 minutes", 7200: "2 hours"}
        for seconds, age in {**ages, 259199: "71 hours", 259200: "3 days"}.items():
            self.gives(age, words.age_in_words, seconds)

    def test_words(self) -> None:
        """When an entry came or changed: the time of its inode, then its own, if it differs."""
        rights: Values = {"Perm": "0644", "UID": 0, "GID": 0}
        kept: Values = {**rights, "Size": 6, "Mtime": 1795600000, "Ctime": 1795600000}
        old: Values = {**kept, "Size": 5}
        back: Values = {**kept, "Ctime": 1795602777}
        gone: Values = {**rights, "Size": 6, "Mtime": 1795602777}
        moved: Values = {**kept, "Bcount": 16}
        dated = "size 5 -> 6, 2026-11-25 10:32 UTC"
        mode = "-rw-r--r-- root:root"
        whole = f"{mode} 6 bytes"
        rows: list[tuple[str, tuple[Values | None, Values | None], str]] = [
            ("came", (None, back), f"{whole}, 2026-11-25 10:32 UTC"),
            ("went", (back, None), whole),
            ("changed, its time set back", (old, back), dated),
            ("changed, without the time of its inode", (old, gone), dated),
            ("changed with the times of before", (old, kept), "size 5 -> 6"),
            ("has other blocks", (moved, {**kept, "Bcount": 8}), "blocks"),
            ("came with capabilities", (None, {**rights, "Caps": "x"}), f"{mode}, capabilities"),
            ("came, with a rule that asks for little", (None, {"Size": 6}), "6 bytes"),
            ("came, without its group", (None, {"UID": 7}), "7:?"),
            ("changed in its time alone", ({"Mtime": 0}, {}), "mtime 1970-01-01T00:00:00Z -> none"),
            ("has a type that was not known", ({}, {"Type": "Directory"}), "entry -> directory"),
        ]
        for label, pair, want in rows:
            self.expect("what %s, and when" % label, entry.entry_words(change_between(*pair)), want)

    def test_state(self) -> None:
        counts = Counts(open=6, open_low=6, told_status=7)
        digests = ("a" * 64, "b" * 64)
        good = state.State(7, 1795602777, 1, 2, 3, *digests, "o\\012", "n", 5, standings=counts)
        good = good._replace(skipped_old=["x"], trusted_old="t")
        data = good.text()
        self.assertEqual(state.parse_state(data), good)
        fields = json.loads(data)
        first = {"format": 3, "date": "2026-11-25T10:32:57Z", "status": 7, "open": 6}
        self.assertEqual({**fields, **first}, fields)
        for written in (-(10**18), (1 << 63) - 1, None):
            early = state.State(0, 1, 0, 0, 0, old_written=written).text()
            self.assertEqual(state.parse_state(early).old_written, written)
        text = state.State(ending.Status.DEVICE, 1, error="a\nb").text()
        self.assertEqual(text.count(b"\n"), 1, "a newline in a value")
        self.assertEqual(state.parse_state(text).error, "a\\012b")
        self.assertIn(b'"status": 18,', text, "a status by its name")
        wrong: dict[str, list[object]] = {
            "format": [2],
            "status": [5, None, 0, True, 10**30],
            "added": [None, "1", -1, 1.0],
            "error": [None, 5],
            "old_sha256": ["a" * 63, "A" * 64],
            "time": [10**30],
            **{"open": [5], "open_low": [None], "recorded": [-1]},
            **{"skipped_old": ["x"], "skipped_new": [[1]]},
        }
        for key, value in ((key, value) for key, values in wrong.items() for value in values):
            with self.subTest(key=key, value=value), self.assertRaises(ValueError):
                state.parse_state(json.dumps({**fields, key: value}).encode())
        for key in ("format", "status", "removed", "same"):
            others = {name: value for name, value in fields.items() if name != key}
            with self.subTest(key), self.assertRaises(ValueError):
                state.parse_state(json.dumps(others).encode())

    def test_ends(self) -> None:
        """How a command ends by what its main does. Without a text it ends with a message of its
        own, and no traceback."""
        broken = "name: a fault of this command: "
        failed = "name: a call of the system failed: "
        for body, status, errors in (
            ("return 7", 7, ""),
            ("raise Fault(15, 'a\\nb', 'c')", 15, r"name: a\\012b\nname: c\n"),
            ("raise MemoryError", 22, "name: out of memory\n"),
            ("raise Done", 0, ""),
            ("sys.exit(2)", 18, rf"{broken}SystemExit: 2 \(<string>:\d+\)\n"),
            ("return None", 18, f"{broken}TypeError: .+\n"),
            ("open('/no\\n')", 18, rf"{failed}/no\\012: No such file or directory\n"),
            ("main(arguments)", 18, f"{broken}RecursionError: .+\n"),
            ("raise KeyboardInterrupt", 18, rf"{broken}KeyboardInterrupt:  \(<string>:\d+\)\n"),
            ("os.kill(os.getpid(), 2)", -2, ""),
            ("os.kill(os.getpid(), 15)", -15, ""),
            ("print('x'); os.close(1); return 0", 18, f"{failed}.+\n"),
        ):
            program = END % (os.path.join(TOP, "commands", "lib"), body)
            words = [sys.executable, "-I", "-S", "-c", program]
            done = subprocess.run(words, capture_output=True, text=True)
            with self.subTest(body):
                self.assertEqual(done.returncode, status, done)
                self.assertNotIn("Traceback", done.stderr)
                self.assertRegex(done.stderr, rf"\A{errors}\Z")
