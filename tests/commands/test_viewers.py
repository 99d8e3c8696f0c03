"""aide-compare json and aide-compare page over names and values that could be taken for something
else, and what the script of a page finds."""
from __future__ import annotations

import json
import os
import random
import subprocess
import unittest
from typing import Any

from tests.lib.program_test import QUICK, ProgramTest, new_seed
from tests.oracle.attributes import NAMES as ATTRIBUTES
from tests.oracle.configuration import BOOL_OPTIONS, DEFAULTS, LEVELS, SET_OPTIONS
from tests.oracle.lines import lines_of as lines_of_databases
from tests.commands.units.streams import fields_of, stream_of
from tests.commands.viewers import hostile
from tests.commands.viewers.lines import Fields, changes_of, objects_of, page_over
from tests.commands.viewers.lines import without_same_rights
from tests.commands.viewers.pages import CASES, HAS_NODE, bytes_shown, seen
from tests.commands.viewers.schema import Validator, schema_of_lines

from aide_compare.base.words import SEVERITIES
from aide_compare.lines.attributes import FORMS, word_of
from aide_compare.show.page import CHOICES, part_of, script_of

# Printable by their class, and yet nothing is seen of them: the Hangul fillers, the empty Braille
# pattern and a variation selector.
BLANKS_THAT_ARE_LETTERS = "\u115f\u1160\u2800\u3164\ufe0f\uffa0"
LABELS = {word_of(label): label for label in FORMS}
PAIRS = 200 if os.environ.get(QUICK) else 400
# What an entry of the table of views has if it does not say it.
USUAL = {"severity": "", "standing": "open", "package": ""}
# What a line has beside what is proved.
ADDED = {"standing", "severity", "package", "standings"}
# What would make markup, or code, of a text.
MARKUP = (
    "innerHTML outerHTML insertAdjacentHTML document.write eval( setTimeout(' .href .src".split()
)

# What a view finds and how it is written, by the functions of the page's script.
VIEWED = """(() => {
  const choices = %s;
  %s
  const entries = %s, view = viewOf(%s);
  const fitting = entries.filter((entry) => fits(view, view.path.toLowerCase(), entry));
  return [ordered(fitting, view.order || 'path').map((entry) => entry.path), textOf(view)];
})()"""
# The elements that the script makes of what it shows.
TAGS = set("h1 h2 p dl dt dd div code b i span small details summary table tr th td li ul".split())


def script_entry(one: Fields) -> Fields:
    """An entry of the table of views, as the script keeps it."""
    own = {name: one[name] for name in ("path", "kind", "place")}
    own.update((name, one.get(name, usual)) for name, usual in USUAL.items())
    own.update(folded=one["path"].lower(), attribute=" ".join(one["attributes"]))
    return {**own, "size": one.get("growth", 0)}


def bytes_in(fields: Fields, key: str) -> bytes:
    if key + "_hex" in fields:
        return bytes.fromhex(fields[key + "_hex"])
    return "none".encode() if fields[key] is None else str(fields[key]).encode()


def values_of(fields: Fields) -> dict[str, list[bytes | None]]:
    """The values of a change by their attributes: of each both sides."""
    fields = without_same_rights(fields)
    sides = [fields.get(side, {}) for side in ("old", "new")]
    labels = {name.removesuffix("_hex") for side in sides for name in side}
    return {
        label: [
            bytes_in(side, label) if {label, label + "_hex"} & side.keys() else None
            for side in sides
        ]
        for label in labels
    }


def values_in(entry: Fields) -> dict[str, list[bytes | None]]:
    """The same as a page shows them, under the words of the attributes."""
    return {
        LABELS[word]: [None if text is None else bytes_shown(text) for text in texts]
        for word, *texts in entry["rows"]
    }


def random_settings(pick: random.Random) -> dict[str, Any]:
    settings: dict[str, Any] = {**DEFAULTS, "database_in": b"/old", "database_new": b"/new"}
    settings["report_level"] = pick.choice(LEVELS + 2 * LEVELS[4:])
    settings.update((name, pick.random() < 0.5) for name in BOOL_OPTIONS)
    for name in SET_OPTIONS:
        if pick.random() < 0.3:
            settings[name] = frozenset(pick.sample(ATTRIBUTES, pick.randint(1, 20)))
    return settings


class ViewersTest(ProgramTest):
    def test_script(self) -> None:
        """The script makes no markup of texts, and fills nested folders in a loop, of which few are
        open at first: no function of it calls itself as deep as folders are nested."""
        script = script_of()
        filling = script[script.index("function fill(") : script.index("function toggle(")]
        end = script.index("// Folders that are open are filled")
        filling += script[script.index("function folderItem(") : end]
        for line in filling.splitlines():
            if "function" not in line and "CHILDREN" not in line:
                self.assertNotIn("fill(", line)
        self.assertIn("opened.size < DEEP", script)
        for word in MARKUP:
            self.assertNotIn(word, script)

    def test_hostile(self) -> None:
        """Lines with names and values that could be taken for something else say what the proved
        ones say."""
        seed = new_seed()
        validator = Validator(schema_of_lines())
        for number in range(PAIRS):
            pick = random.Random(f"hostile {seed} {number}")
            (old, new), names = hostile.random_databases(pick)
            proved = lines_of_databases(old, new, names, random_settings(pick))[0]
            with self.subTest(seed=seed, number=number):
                objects = objects_of(proved)
                given = []
                for fields in objects:
                    self.assertEqual(validator.faults(fields), [])
                    given.append({name: fields[name] for name in fields if name not in ADDED})
                self.assertEqual(given, [json.loads(line) for line in proved.splitlines()])
                if HAS_NODE and number % 20 == 0:
                    self.check_page(objects)

    def check_page(self, objects: list[Fields]) -> None:
        """A page shows the bytes of all paths and values, and only letters that are seen. What a
        host has chosen makes no element."""
        page = page_over(objects)
        self.assertTrue(page.isascii(), "no letter that turns the direction of text")
        self.assertEqual(page.count(b"<script"), page.count(b"</script"))
        self.assertEqual((page.count(b"<script"), page.count(b"<!--")), (2, 0))
        shown = seen(page)
        self.assertLessEqual(set(shown["tags"]), TAGS)
        self.assertFalse(shown["digest"], "what is there without a script")
        found = {}
        for entry in shown["entries"]:
            rows = [text for row in [*entry["rows"], *entry["shown"]] for text in row if text]
            for text in (entry["path"], entry["about"], *rows):
                self.assertTrue(text.isprintable(), ascii(text))
                self.assertFalse(set(BLANKS_THAT_ARE_LETTERS) & set(text), ascii(text))
            found[bytes_shown(entry["path"])] = (entry["words"].split(" ")[0], values_in(entry))
        wanted = {
            bytes_in(fields, "path"): (fields["kind"], values_of(fields))
            for fields in changes_of(objects)
        }
        self.assertEqual(found, wanted)

    @unittest.skipUnless(HAS_NODE, "not installed: node")
    def test_page(self) -> None:
        """What has no room: values go first, then those that matter least."""
        sides: dict[str, Any] = {"old": {"SHA256": "00"}, "new": {"SHA256": "11"}}
        changes = [fields_of(f"/etc/{number}", "changed", **sides) for number in range(9)]
        objects = objects_of(os.pread(stream_of(*changes), 1 << 16, 0))
        levels = ("low", "high", "medium")
        for number, fields in enumerate(changes_of(objects)):
            fields.update(standing="open", severity=levels[number % 3])
        whole = page_over(objects)
        self.check_page(objects)
        sections = [entry["section"] for entry in seen(whole)["entries"]]
        wanted = [f"Open, severity {level}" for level in SEVERITIES]
        self.assertEqual(list(dict.fromkeys(text.partition(":")[0] for text in sections)), wanted)
        for limit in (800, 1500, 3000):
            entries = seen(page_over(objects, limit))["entries"]
            self.assertGreater(len(entries), 0)
            self.assertEqual(
                [entry["section"].partition(":")[0] for entry in entries],
                [text.partition(":")[0] for text in sections[: len(entries)]],
            )
            has_values = [bool(entry["rows"]) for entry in entries]
            self.assertEqual(has_values, sorted(has_values, reverse=True), limit)
        self.assertLess(len(page_over(objects, 800)), len(whole))

    @unittest.skipUnless(HAS_NODE, "not installed: node")
    def test_views(self) -> None:
        """The table of views: what filters and orders find, by the functions of the script."""
        with open(CASES, encoding="utf-8") as file:
            table = json.load(file)
        entries = json.dumps([script_entry(one) for one in table["entries"]])
        choices = json.dumps({**CHOICES, "attribute": table["attributes"]})
        logic = part_of("page_logic.js")
        views = [
            VIEWED % (choices, logic, entries, json.dumps(case["view"])) for case in table["cases"]
        ]
        values = ",".join(view.rstrip().rstrip(";") for view in views)
        text = f"console.log(JSON.stringify([{values}]))"
        shown = subprocess.check_output(["node", "-"], input=text.encode())
        for case, (found, view) in zip(table["cases"], json.loads(shown)):
            self.assertEqual((found, view), (case["found"], case.get("text", case["view"])), case)
