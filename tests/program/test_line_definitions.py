"""Tries the definitions of the lines (tests/oracle/lines.py) by what is written by hand and by
other readers: members and whole answers come from the tables in line_rows.py, and the characters
that need an escape from Python's table of Unicode.
"""
from __future__ import annotations

import itertools
import json
import re
import unicodedata

from tests.lib.answer import Answer, shown
from tests.lib.program_test import AnswerTest
from tests.oracle.attributes import ATTRIBUTES
from tests.oracle.configuration import BOOL_OPTIONS, LEVELS
from tests.oracle.lines import lines_answer_of, string, text_member
from tests.program import line_rows
from tests.program.real_files.folder import EMPTY, database

COMPARE, CHECK = [b"-E", b"-c", b"/conf"], [b"-D", b"-c", b"/conf"]
NAMES = b"database_in=file:/old\ndatabase_new=file:/new\n"
DIRECTIONS = {"LRE", "RLE", "PDF", "LRO", "RLO", "LRI", "RLI", "FSI", "PDI"}
MARKS = ["ARABIC LETTER MARK", "LEFT-TO-RIGHT MARK", "RIGHT-TO-LEFT MARK"]
LETTERS = '"\\' + "".join(map(unicodedata.lookup, MARKS))
# UTF-8 as RFC 3629 writes it down, by its first bytes.
CHARACTER = (
    rb"[\x00-\x7f]|[\xc2-\xdf][\x80-\xbf]|\xe0[\xa0-\xbf][\x80-\xbf]"
    rb"|[\xe1-\xec\xee\xef][\x80-\xbf]{2}|\xed[\x80-\x9f][\x80-\xbf]"
    rb"|\xf0[\x90-\xbf][\x80-\xbf]{2}|[\xf1-\xf3][\x80-\xbf]{3}|\xf4[\x80-\x8f][\x80-\xbf]{2}"
)
UTF8 = re.compile(b"(?:" + CHARACTER + b")*")
# Bytes at which a rule of UTF-8 begins or ends.
EDGES = b"\x00\x7f\x80\x8f\x90\x9f\xa0\xbf\xc0\xc1\xc2\xdf\xe0\xe1\xec\xed\xee\xef"
EDGES += b"\xf0\xf1\xf3\xf4\xf5\xff"


def answer_to(
    words: list[bytes], options: bytes = b"", old: bytes = EMPTY, new: bytes = EMPTY
) -> Answer:
    return lines_answer_of(words, {b"/conf": options, b"/old": old, b"/new": new}.get)


def needs_escape(character: str) -> bool:
    return (
        character in LETTERS
        or unicodedata.category(character) in ("Cc", "Zl", "Zp")
        or unicodedata.bidirectional(character) in DIRECTIONS
    )


class LineDefinitionsTest(AnswerTest):
    def test_characters(self) -> None:
        """Each character, in its own string: it stands as it is, unless it needs an escape."""
        for plane in range(17):
            codes = range(plane << 16, plane + 1 << 16)
            characters = [chr(code) for code in codes if not 0xD800 <= code < 0xE000]
            texts = list(map(string, characters))
            values = json.loads((b"[%s]" % b",".join(texts)).decode())
            self.assertEqual(len(values), len(characters))
            faults = [
                "U+%04X is written %r" % (ord(character), text)
                for character, text, value in zip(characters, texts, values)
                if needs_escape(character) == (text == b'"%s"' % character.encode())
                or value != character
            ]
            self.add("characters from U+%X0000 on" % plane, faults)

    def test_bytes(self) -> None:
        """Lists of bytes: which of them are strings, and which stand in base 16."""
        for length in range(5):
            pool, faults = (range(256) if length < 3 else EDGES), []
            for text in map(bytes, itertools.product(pool, repeat=length)):
                name, value = text_member("x", text)
                want = ("x_hex", text.hex())
                if UTF8.fullmatch(text):
                    want = ("x", text.decode("utf-8", "replace"))
                if (name, json.loads(value.decode("utf-8"))) != want:
                    faults.append("%r is written %r" % (text, (name, value)))
            self.add("lists of %d bytes" % length, faults)

    def test_members(self) -> None:
        """Each form of each attribute, at an added, at a removed and at a changed entry."""
        for column, field, member in line_rows.MEMBERS:
            text = database(column, field)
            other = b"@@begin_db\n@@db_spec name\n/a\n@@end_db\n"
            for old, new, sides in (
                (EMPTY, text, '"new":{%s}' % member),
                (text, EMPTY, '"old":{%s}' % member),
                (other, text, '"old":{},"new":{%s}' % member if member else None),
            ):
                lines = answer_to(COMPARE, NAMES, old, new).output.split(b"\n")[1:-2]
                ends = [] if sides is None else [f",{sides}}}".encode()]
                good = len(lines) == len(ends) and all(map(bytes.endswith, lines, ends))
                self.holds("%s %s" % (column.decode(), shown(field)), good, lines)
        columns = {column for column, _, member in line_rows.MEMBERS if member}
        wanted = {attribute.column.encode() for attribute in ATTRIBUTES}
        self.assertEqual(columns, wanted, "each attribute has a row")

    def test_whole(self) -> None:
        """Whole answers, under each layout of a report."""
        skipped = b"aide: %s database: column 5 skipped\n"
        layouts = [b"report_level=%s\n" % level.encode() for level in LEVELS]
        switches = itertools.product(BOOL_OPTIONS, ("yes", "no"))
        layouts += [f"{name}={value}\n".encode() for name, value in switches]
        for (options, output, status), layout in itertools.product(line_rows.WHOLE, layouts):
            errors = skipped % b"old" + (b"" if status else skipped % b"new")
            answer = answer_to(COMPARE, NAMES + options + layout, line_rows.OLD, line_rows.NEW)
            want = Answer(output.encode(), errors, status)
            self.check("%r with %r" % (options, layout), answer, want)
        for options, output in line_rows.SETTINGS:
            want = Answer(output.encode(), b"", 0)
            self.check("what %r says" % options, answer_to(CHECK, options), want)
