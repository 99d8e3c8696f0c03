"""What the manual pages say of the program.

The names (options, directives, groups, attributes with column, bit and letter), faults and limits
in man/ are those of the definitions, which tests/program compares with the built program. The
reports, the examples and the lines of the program are tried on the program itself.
"""
from __future__ import annotations

import os
import re
import shutil
import subprocess
import unittest
from typing import Any

from tests.commands.viewers.schema import schema_of_lines
from tests.lib.answer import Answer, run
from tests.lib.program_test import ProgramTest, ScratchTest
from tests.lib.scratch import TOP, read
from tests.oracle import configuration
from tests.oracle.attributes import ATTRIBUTES, EMPTY_NAMES, GROUPS
from tests.oracle.configuration import LEVELS, OLDER_OPTIONS, WITHOUT_EFFECT
from tests.oracle.database import BYTE_LIMIT, COLUMN_LIMIT, LINE_LIMIT
from tests.oracle.patterns import MOST_RULES
from tests.oracle.session import CONFIGURATION_LIMIT, CONFIGURATION_WORDS, DATABASE_WORDS
from tests.pages.blocks import MANUALS, blocks_of
from tests.pages.cases_beside_aide import database

PAGE, CONF_PAGE = read("man/aide-compare-program.8"), read("man/aide-compare.conf.5")
# The kind of value that each option has.
KINDS = {
    **dict.fromkeys(configuration.URL_OPTIONS, "URL"),
    **dict.fromkeys(configuration.BOOL_OPTIONS, "bool"),
    **dict.fromkeys(configuration.SET_OPTIONS, "expression"),
    "report_level": "level",
    "report_url": "text",
    "report_format": "plain",
}
DIRECTIVES = [
    "@@define Ar name Op Ar value",
    "@@undef Ar name",
    "@@ifdef Ar name",
    "@@if Cm defined Ar name",
    "@@ifndef Ar name",
    "@@if Cm not defined Ar name",
    "@@else",
    "@@endif",
    "@@{ Ns Ar name Ns Ic }",
]
NAME_LIMIT = 64
LIMITS = {
    "database, bytes of a line": LINE_LIMIT,
    "database, bytes": BYTE_LIMIT,
    "database, columns": COLUMN_LIMIT,
    "configuration file, bytes": CONFIGURATION_LIMIT,
    "configuration, bytes of a used line": configuration.LINE_LIMIT,
    "configuration, blocks in one another": configuration.DEPTH_LIMIT,
    "configuration, variables": configuration.COUNT_LIMIT,
    "configuration, groups": configuration.COUNT_LIMIT,
    "variable or database path, bytes": configuration.VALUE_LIMIT,
    "name of a variable or group, bytes": NAME_LIMIT,
    "list, lines that name paths": MOST_RULES,
    "list, bytes (an argument of Linux)": (128 << 10) - 1,
}


PAIR = (
    database("name attr perm size sha256", "/b 36 40755 4096 0", "/c 36 100644 10 0"),
    database(
        "name attr perm size sha256",
        "/a 36 100644 5 0",
        "/c 36 100600 7 47DEQpj8HBSa+/TImW+5JCeuQeRkm5NMpJWZG3hSuFU=",
    ),
)


def unescaped(text: str) -> str:
    return text.replace("\\&", "").replace("\\e", "\\").replace("\\-", "-")


def between(begin: str, end: str) -> str:
    """The text of the page of configurations between two of its marks."""
    return unescaped(CONF_PAGE.split(f'.\\" begin {begin}\n')[1].split(f'.\\" end {end}\n')[0])


def line_after(text: str, begin: str) -> str:
    """The line of macros after the words that begin so."""
    found = re.search(rf"^{begin}.*\n\.\w\w (.*)$", text, re.M)
    assert found, begin
    return found[1]


def sentence_after(text: str, begin: str) -> str:
    """The rest of the sentence that begins so."""
    return text.partition(begin)[2].partition(".\n")[0]


def section(page: str, title: str, macro: str = "Sh") -> str:
    """The text of a section, or of a subsection (Ss), up to the next one."""
    found = re.search(rf"^\.{macro} {re.escape(title)}\n(.*?)(?=^\.S[hs] |\Z)", page, re.M | re.S)
    assert found, title
    return found[1]


def listed(title: str) -> list[tuple[str, str]]:
    """The lines that a subsection of the program's page lists, each with the line below it."""
    found = re.findall(r"^\.It Li (.*)(?=\n(.*)$)", section(PAGE, title, "Ss"), re.M)
    return [(unescaped(line).strip('"'), below) for line, below in found]


def shown_by(level: str, report: str) -> str:
    """The part of the report with all that a level shows."""
    at = LEVELS.index(level)
    head, *lists, details, databases = re.split(r"(?=\n-+\n.*:\n-+\n)", report)
    if level != "added_removed_entries":
        details = re.sub(r"\n(?:File: /a|Directory: /b)\n(?:  .*\n)+", "", details)
    if level == "changed_attributes":
        details = re.sub(r"^  SHA256 .*\n.*\n", "", details, flags=re.M)
    first, _, summary = head.partition("\n")
    shown = [first + "\n", summary, databases, "".join(lists), details][: min(at, 4) + 1]
    return "".join([*shown[:2], *shown[3:], *shown[2:3]])


def fault_of(line: str) -> str | None:
    """The kind of the fault that a configuration of one line has by the definitions."""
    found = configuration.read(b"", line.encode(), b"", False)
    return found.kind if isinstance(found, configuration.Fault) else None


class PagesTest(ScratchTest):
    def test_man(self) -> None:
        self.needs("man")
        for page in MANUALS:
            words = ["man", "--warnings", "-E", "UTF-8", "-l", "-Tutf8", "-Z", page]
            done = subprocess.run(words, capture_output=True, cwd=TOP, text=True, check=False)
            self.assertEqual((done.returncode, done.stderr), (0, ""), page)

    def test_mandoc(self) -> None:
        """No style is doubtful. The pages of other programs that ours name are there."""
        self.needs("mandoc")
        for name, section_ in set(re.findall(r"\bXr (\S+) (\d)", "".join(map(read, MANUALS)))):
            self.write(f"man/man{section_}/{name}.{section_}", "")
        for page in MANUALS:
            shutil.copy(os.path.join(TOP, page), self.path("man/man" + page[-1]))
        words = ["mandoc", "-T", "lint", "-W", "style", *MANUALS]
        place = {**os.environ, "MANPATH": self.path("man")}
        done = subprocess.run(words, stdout=subprocess.PIPE, cwd=TOP, env=place, check=False)
        self.assertEqual(done.stdout, b"")


class NamesTest(unittest.TestCase):
    """What the pages name is what the definitions have."""

    def test_options(self) -> None:
        options = section(CONF_PAGE, "OPTIONS")
        found = re.findall(r"^\.It Li (\w+)=(\w+)$", options, re.M)
        self.assertEqual(dict(found), KINDS)
        levels = re.search(r"^\.It Li report_level=level\n(.*?)\.\n\.It", options, re.M | re.S)
        assert levels
        self.assertEqual(re.findall(r"[a-z]+_[a-z_]+|minimal|summary", levels[1]), LEVELS)

    def test_without_effect(self) -> None:
        names = re.findall(r"\b[a-z]\w+\b", between("without effect", "without effect"))
        self.assertEqual(sorted(names), sorted(WITHOUT_EFFECT))

    def test_refused(self) -> None:
        """What is refused by name."""
        refused = between("refused", "refused")
        older = re.findall(r"\b[a-z_]+\b", line_after(refused, "the older names"))
        self.assertEqual(sorted(older), sorted(OLDER_OPTIONS))
        directives = re.findall(r"@@\w+", refused)
        urls = re.findall(r"\b[a-z]+:?(?= [,.])", line_after(refused, "a database that is"))
        self.assertEqual((len(directives), len(urls)), (4, 5), (directives, urls))
        lines = [name + "=no" for name in older] + [name + " x" for name in directives]
        lines += ["database_in=" + url for url in urls] + ["report_format=json"]
        for line in lines:
            self.assertEqual(fault_of(line), "LeftOut", line)
        self.assertIn("\n.Ic report_format Ns = Ns Cm json ;\n", refused)

    def test_directives(self) -> None:
        named = re.findall(r"^\.It Ic (@@.*)$", section(CONF_PAGE, "DIRECTIVES"), re.M)
        self.assertEqual(sorted(named), sorted(DIRECTIVES))
        for name in named:
            line = re.sub(r" (?:Ar|Cm|Op|Ns|Ic)\b", "", name)
            blocks = (None, "StrayElse", "StrayEndif", "MissingEndif")
            self.assertIn(fault_of(line.replace("{ name }", "{name}")), blocks, line)

    def test_attributes(self) -> None:
        form = r"^\.It (\S+)\t(\S+)\t(\S+)\t(\S+)\t(\S+)$"
        table = between("attributes", "attributes")
        before, after = [re.findall(form, part, re.M) for part in table.split("\n.It Em digests\t")]
        digests = re.findall(r"\w+", sentence_after(table, "The digests are, in this order,"))
        odd = re.findall(r"[^ ,\n]+", sentence_after(table, "The details call the last three"))
        details = [name.upper() for name in digests[:-3]] + odd
        shared = [(name, name, "-", "H", detail) for name, detail in zip(digests, details)]
        rows = [*before, *shared, *after]
        wanted = [
            (each.name, each.column, str(each.bit or "-"), each.slot, each.detail)
            for each in ATTRIBUTES
        ]
        self.assertEqual(rows, wanted)

    def test_groups(self) -> None:
        groups = re.findall(r"^\.It (\S+) Ta (.*)$", between("groups", "groups"), re.M)
        named = {"the empty set": GROUPS["E"], "all digests": GROUPS["H"]}
        sets: dict[str, frozenset[str]] = {}
        for name, text in groups:
            parts = [sets.get(part, frozenset([part])) for part in text.split("+")]
            sets[name] = named.get(text, frozenset().union(*parts))
        self.assertEqual(sets, GROUPS)
        empty = re.findall(r"\w+", between("empty names", "empty names"))
        self.assertEqual(sorted(empty), sorted(EMPTY_NAMES))

    def test_members(self) -> None:
        """The schema describes each member of the lines: no manual page does."""
        schema = schema_of_lines()["$defs"]
        for line in ("summary", "change", "end"):
            for name, member in schema[line]["properties"].items():
                if member is not False and not name.endswith("_hex"):
                    self.assertTrue(member.get("description", "").endswith("."), f"{line}: {name}")

    def test_faults(self) -> None:
        """Each fault that DIAGNOSTICS explains is one that the program names."""
        for title, words in (
            ("Errors of the configuration", CONFIGURATION_WORDS),
            ("Errors of a database", {**DATABASE_WORDS, "read": "read failed"}),
        ):
            named = [line for line, _ in listed(title)]
            self.assertGreater(len(named), 2, title)
            self.assertEqual(set(named) - set(words.values()), set(), title)

    def test_limits(self) -> None:
        rows = re.findall(r"^\.It (.*)\t([\d,]+)$", section(PAGE, "LIMITS"), re.M)
        self.assertEqual({name: int(number.replace(",", "")) for name, number in rows}, LIMITS)
        for more, fault in ((0, None), (1, "BadName")):
            self.assertEqual(fault_of("@@define " + "A" * (NAME_LIMIT + more)), fault)

    def test_database(self) -> None:
        """The database of the page is the one that its reports are of."""
        found = re.search(r"^@@begin_db\n.*?^@@end_db\n", CONF_PAGE, re.M | re.S)
        self.assertEqual(found and found[0], PAIR[0])


class ShownTest(ScratchTest, ProgramTest):
    """What the pages show is what the program writes."""

    def configuration(self, old: str, new: str, options: str = "") -> str:
        """The path of a configuration that names two databases."""
        return self.write("conf", f"database_in=file:{old}\ndatabase_new=file:{new}\n{options}")

    def put_pair(self) -> tuple[str, str]:
        return self.write("old.db", PAIR[0]), self.write("new.db", PAIR[1])

    def test_reports(self) -> None:
        """The report and the lines that pages show are what the programs write, level for level."""
        blocks = [*blocks_of("examples/README.md"), *blocks_of("man/aide-compare-program.8")]
        parts = {name: block.text for block in blocks for name in block.values("try:")}
        self.assertEqual(list(parts), [LEVELS[-1], "lines"], "what is shown")
        pair = self.put_pair()
        output = run(self.lines_program, ["-E", "-c", self.configuration(*pair)]).output_text
        lines = output.replace(self.root, "/var/lib/aide").splitlines(keepends=True)
        self.assertEqual(parts["lines"], lines[0] + lines[1])
        for level in LEVELS:
            wanted = shown_by(level, parts[LEVELS[-1]])
            conf = self.configuration(*pair, f"report_level={level}\n")
            done = run(self.program, ["-E", "-c", conf])
            output = done.output_text.replace(self.root, "/var/lib/aide")
            got = "".join(line.rstrip() + "\n" for line in output.splitlines())
            self.assertEqual((done.status, got, done.errors), (7, wanted, b""), level)

    def test_examples(self) -> None:
        """The configurations of the page have no fault."""
        form = r"^\.Bd -literal -offset indent\n(database_in=.*?)^\.Ed$"
        examples = re.findall(form, CONF_PAGE, re.M | re.S)
        self.assertEqual(len(examples), 1, "examples of the page")
        for text in examples:
            words = ["-D", "-c", self.write("conf", text)]
            self.assertEqual(run(self.program, words), Answer(b"", b"", 0), text)

    def test_lines(self) -> None:
        """Each line of the program that the page lists is made to happen, with its status."""
        old, new = self.put_pair()
        compare = ("-E", "-c", self.configuration(old, new))
        skipped = self.write("skipped.db", PAIR[0].replace("attr perm", "attr odd"))
        reader, writer = os.pipe()
        os.write(writer, PAIR[0].encode())
        os.close(writer)
        self.addCleanup(os.close, reader)
        trials: list[tuple[str, tuple[str | bytes, ...], dict[str, Any]]] = [
            ("usage", (), {}),
            ("out of memory", ("-D", "-c", b"\xff"), {}),
            ("cannot read", ("-D", "-c", "/nope"), {}),
            ("longer", ("-D", "-c", self.write("long", "\n" * (CONFIGURATION_LIMIT + 1))), {}),
            ("cannot open", (*compare, "-A", "database_new=file:/nope"), {}),
            ("changed", (*compare, "-A", "database_in=file:/dev/stdin"), {"stdin": reader}),
            ("cannot write", compare, {"stdout": os.open("/dev/full", os.O_WRONLY)}),
            ("skipped", (*compare, "-A", "database_in=file:" + skipped), {}),
        ]
        self.addCleanup(os.close, trials[6][2]["stdout"])
        lines = listed("Lines of the program")
        self.assertEqual(len(lines), len(trials), lines)
        for (words, arguments, streams), (line, below) in zip(trials, lines):
            done = run(self.program, arguments, **streams)
            form = re.sub(r"\\?\b(FILE|SIDE|PATH|N)\b", ".+", re.escape(line))
            wanted = line if words == "usage" else None
            said = rf"\Aaide: {re.escape(wanted) if wanted else form}\n\Z"
            self.assertRegex(done.error_text, said)
            self.assertEqual(below, f"Status {done.status}." if done.status > 7 else below, line)
            self.assertIn(words, line)
