"""aide-compare json and page: what lines have beside what is proved, and what the schema says."""
from __future__ import annotations

import json
import os
import re
import shlex
from typing import Any

from tests.commands.sandbox import CommandTest
from tests.commands.viewers.lines import proved_lines
from tests.commands.viewers.schema import Validator, schema_of_lines
from tests.lib.answer import Answer, run
from tests.lib.scratch import TOP

from aide_compare.lines.change import change_of
from aide_compare.lines.readable import texts_of
from aide_compare.lines.rights import RIGHTS

USAGE, CONFIGURATION, DEVICE = 15, 17, 18
ONE_PLACE = b"two outputs have one place: "
# Databases of AIDE 0.18.3 with access control lists, extended attributes, flags and capabilities.
OLD, NEW = (
    os.path.join(TOP, "tests", "commands", "viewers", "values", name)
    for name in ("old.db", "new.db")
)
Fields = dict[str, Any]


def objects_of(answer: Answer) -> list[Fields]:
    return [json.loads(line) for line in answer.output.splitlines()]


def changed(fields: Fields, **values: object) -> Fields:
    """An object with other members; one that is Ellipsis is taken out."""
    return {name: value for name, value in {**fields, **values}.items() if value is not ...}


class OccasionTest(CommandTest):
    def compared(self, *words: str) -> list[Fields]:
        answer = self.call("aide-compare json", *words, OLD, NEW)
        self.assertEqual((answer.status, answer.errors), (7, b""), answer)
        return objects_of(answer)

    def lines_over(self, old: str = OLD, new: str = NEW, more: str = "") -> bytes:
        """The lines of the proved program."""
        text = f"database_in=file:{old}\ndatabase_new=file:{new}\n{more}\n"
        return proved_lines(os.fsencode(self.program), text)

    def put_pair(self, columns: str, old: str, new: str) -> tuple[str, str]:
        text = f"@@begin_db\n@@db_spec name {columns}\n%s\n@@end_db\n"
        return self.write("one.db", text % old), self.write("other.db", text % new)

    def test_two(self) -> None:
        """The proved program's lines, with both names, severities, and the counts of standings."""
        rights = f"report_force_attrs={'+'.join(RIGHTS)}"
        given = self.compared()
        wanted = [json.loads(line) for line in self.lines_over(more=rights).splitlines()]
        levels = [change.pop("severity") for change in given[1:-1]]
        self.assertLessEqual(set(levels), {"high", "medium", "low"})
        self.assertEqual((given[-1].pop("standings")["open"], len(levels)), (7, 7))
        for change in given[1:-1]:
            self.assertEqual(change.pop("standing"), "open")
        wanted[0].update(old=OLD, new=NEW)
        self.assertEqual(given, wanted)

    def test_bytes(self) -> None:
        """The members of a line are the program's own bytes, if all of them are ASCII."""
        pair = self.put_pair("perm", "/a 100644", "/a%0A 100600\n/%C3%A9 100600")
        proved = self.lines_over(*pair, f"report_force_attrs={'+'.join(RIGHTS)}").splitlines()
        given = self.call("aide-compare json", *pair).output.splitlines()
        self.assertEqual(len(given), len(proved))
        for line, other in zip(given[1:-1], proved[1:-1]):
            self.assertTrue(line.isascii(), line)
            self.assertEqual(line.startswith(other[:-1] + b","), other.isascii(), line)
        self.assertEqual(sum(not line.isascii() for line in proved), 1)

    def test_places(self) -> None:
        """Several outputs of one run: each in its file, which is replaced when all is written."""
        page = self.call("aide-compare page", OLD, NEW).output
        lines = self.call("aide-compare json", OLD, NEW).output
        brief = self.call("aide-compare", OLD, NEW).output
        words = ("--json", "lines", "--page", "page", "--state", "state")
        self.answered(7, brief, None, "aide-compare", *words, OLD, NEW)
        self.assertEqual(self.read("lines"), lines)
        at = rb"20..-..-.. ..:.. UTC"  # When it was compared.
        self.assertEqual(re.sub(at, b"", self.read("page")), re.sub(at, b"", page))
        for name in ("lines", "page"):
            self.assertEqual(os.stat(self.path(name)).st_mode & 0o777, 0o600)
        for more in (["--json", "-"], ["--page", "/dev/stdout"]):
            text = lines if "--json" in more else page
            self.answered(7, text[-300:], b"", "aide-compare", *more, OLD, NEW)
        for status, said, more in (
            (USAGE, ONE_PLACE, ["--json=-", "--page=-", NEW]),
            (USAGE, ONE_PLACE, ["--json=lines", f"--page={self.path('lines')}", NEW]),
            (USAGE, ONE_PLACE, ["--json=state", NEW]),
            (USAGE, ONE_PLACE, ["--only=/x", "--report", NEW]),
            (DEVICE, b"cannot write the output of --json none/x", ["--json=none/x", NEW]),
            (DEVICE, b"cannot open", ["--json=lines", "/no"]),
        ):
            self.refused(status, said, "aide-compare", OLD, *more, state="state")
        twice = ("--json=lines", "--json=others")
        self.refused(USAGE, b"--json is given twice", "aide-compare", *twice, OLD, NEW)
        for tool, option in (("json", "--json=lines"), ("page", "--page=page.html")):
            unknown = b"unrecognized arguments: " + option.encode()
            self.refused(USAGE, unknown, f"aide-compare {tool}", option, OLD, NEW)
        self.assertEqual(self.read("lines"), lines, "nothing was compared")

    def test_streams(self) -> None:
        """A full device and closed streams are no success, and leave nothing half said."""
        for tool in ("aide-compare json", "aide-compare page"):
            with open("/dev/full", "wb") as full:
                answer = self.call(tool, OLD, NEW, stdout=full)
            self.expect("a full device", answer, DEVICE, None, b"No space left")
            for closed in (">&-", ">&- 2>&-"):
                command = f"{shlex.join(self.command(tool, OLD, NEW))} {closed}"
                done = run("sh", ["-c", command], env=self.environment())
                found = (done.status, done.output, b"Traceback" in done.errors)
                self.assertEqual(found, (DEVICE, b"", False), (closed, done))

    def test_refused(self) -> None:
        for status, errors, words in (
            (USAGE, b"name both databases", ["-"]),
            (USAGE, b"unrecognized arguments: --report", ["--report", OLD, NEW]),
            (USAGE, b"unrecognized arguments: --only=/x", ["--only=/x", OLD, NEW]),
            (USAGE, ONE_PLACE, ["--state=/dev/stdout", OLD, NEW]),
            (CONFIGURATION, b"aide: after:1: line not understood", ["-A", "x", OLD, NEW]),
            (DEVICE, b"more than 9 bytes", ["--max-size", "9", OLD, NEW]),
        ):
            for tool in ("aide-compare json", "aide-compare page"):
                self.refused(status, errors, tool, *words)

    def test_names_of_databases(self) -> None:
        """A name that is not UTF-8 is there in hexadecimal digits."""
        name = os.fsencode(self.path("")) + b"\xff"
        os.symlink(os.fsencode(NEW), name)
        first = objects_of(self.call("aide-compare json", OLD, os.fsdecode(name)))[0]
        self.assertEqual(first["old"], OLD)
        self.assertEqual((first["new_hex"], "new" in first), (name.hex(), False))

    def test_one_text(self) -> None:
        """Two values with one text, such as a list with and without its last newline: the text
        would hide the change."""
        values = ("/a POSIX,dXNlcjo6cnctCg==,0 16", "/a POSIX,dXNlcjo6cnct,0 0016")
        pair = self.put_pair("acl e2fsattrs", *values)
        entry = objects_of(self.call("aide-compare json", *pair))[1]
        self.assertEqual(set(entry["new"]), {"ACL", "E2FSAttrs"})
        self.assertEqual(texts_of(change_of(entry)), ({}, {}))

    def test_types(self) -> None:
        """A mode has the letter of the type of its side."""
        pair = self.put_pair("perm", "/a 100644\n/b 100644", "/a 41777\n/b 101777")
        entry = objects_of(self.call("aide-compare json", *pair))[1]
        modes = [texts["Perm"] for texts in texts_of(change_of(entry))]
        self.assertEqual((entry["path"], modes), ("/a", ["-rw-r--r--", "drwxrwxrwt"]))

    def test_left_out(self) -> None:
        """What is left out says by which line of the list, and is counted in the last line."""
        words = ["--exclude", "/nothing", "--exclude", "/**"]
        _, *changes, end = objects_of(self.call("aide-compare json", *words, OLD, NEW))
        left_out = [fields for fields in changes if fields["standing"] == "left out"]
        self.assertGreater(len(left_out), 0)
        self.assertEqual({fields["left_out"] for fields in left_out}, {2})
        self.assertEqual((end["left_out"], end["standings"]["left_out"]), (len(left_out),) * 2)

    def test_schema(self) -> None:
        """Good lines fit the schema, and lines with one fault each do not."""
        validator = Validator(schema_of_lines())
        objects = self.compared()
        summary, end = objects[0], objects[-1]
        entry = next(each for each in objects if each.get("kind") == "changed")
        sides = {kind: {side: entry[side]} for kind, side in (("removed", "old"), ("added", "new"))}
        lone = changed(entry, old=..., new=...)
        silent = changed(entry, severity=...)
        alone = changed(lone, severity=..., standing="same")
        recorded = changed(entry, standing="recorded", package="openssl 3.0.15")
        good: list[object] = [
            *objects,
            recorded,
            changed(summary, old=..., old_hex="2fff"),
            changed(lone, kind="added", **sides["added"]),
            changed(lone, kind="removed", **sides["removed"]),
            changed(entry, path=..., path_hex="2fff"),
            changed(silent, same_as="old", standing="same"),
            changed(silent, same_as="trusted", standing="trusted"),
            changed(entry, same_as="trusted", standing="open"),
            *(
                changed(alone, kind=kind, same_as="trusted", standing="trusted", **side)
                for kind, side in sides.items()
            ),
            changed(silent, left_out=7, standing="left out"),
            changed(end, skipped={"new": ["fstype"]}, list={"sha256": "00" * 32}),
        ]
        self.assertEqual([value for value in good if validator.faults(value)], [])
        read: Fields = {"sha256": "00" * 32, "skipped": []}
        bad: list[object] = [
            [],
            changed(summary, old=..., old_hex="2"),
            changed(summary, old_hex="2f"),
            changed(entry, **end),
            changed(entry, kind="removed"),
            changed(lone, kind="added"),
            changed(entry, path=..., path_hex="61"),
            changed(entry, same_as="old"),
            changed(entry, same_as="old", standing="same"),
            changed(silent, same_as="old", standing="trusted"),
            *(changed(alone, kind=kind, same_as="old", **side) for kind, side in sides.items()),
            *(changed(silent, standing=word) for word in ("same", "trusted", "left out")),
            changed(recorded, package=...),
            changed(entry, package="openssl 3.0.15"),
            changed(entry, left_out=1),
            changed(silent, left_out=0, standing="left out"),
            changed(silent, left_out=1, same_as="old", standing="same"),
            *(changed(entry, new=new) for new in ({"Sise": 2}, {"Size": "x"}, {"Perm": "644"})),
            *(changed(entry, new=new) for new in ({"SHA256": "<b>"}, {"ACL_hex": "0"})),
            changed(entry, more=3),
            changed(end, new={**read, "sha256": "00"}),
            *(changed(end, new={**read, "skipped": [number]}) for number in (0, 65)),
            changed(end, standings={"open": 1}),
            changed(end, status=8),
        ]
        optional = {"type", "severity", "standing", "standings", "skipped"}
        for fields in (summary, entry, end):
            bad += [changed(fields, **{name: 2.5}) for name in fields]
            bad += [changed(fields, **{name: ...}) for name in fields.keys() - optional]
        self.assertEqual([value for value in bad if not validator.faults(value)], [])

    def test_keywords(self) -> None:
        """A keyword that the validator does not know is not passed over."""
        self.assertIn("minLength", str(Validator({"minLength": 3}).faults("x")))
