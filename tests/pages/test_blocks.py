"""The commands that README, examples/README and the manual pages show, run as they stand; and what
the pages say of statuses, messages and options."""
from __future__ import annotations

import glob
import gzip
import os
import re
import shutil
import unittest

from tests.commands.units.calls import helped
from tests.lib.scratch import TOP, read
from tests.pages.blocks import MANUALS, Block, blocks_of, plain
from tests.pages.machine import HOSTS, STATE, STORE, MachineTest

from aide_compare.base.options import COMPARISON_DEFAULTS, MAIL_DEFAULTS
from aide_compare.commands.status import check

HEAD = "@@begin_db\n@@db_spec name perm size atime inode\n"
# One is removed, one added, two are changed: all can write /c; of /d only atime and inode differ.
OLD = HEAD + "/b 40755 4096 MA== 1\n/c 100644 10 MA== 2\n/d 100600 1 MA== 3\n@@end_db\n"
NEW = HEAD + "/a 100644 5 MA== 4\n/c 100646 10 MA== 2\n/d 100600 1 MQ== 5\n@@end_db\n"
FRESH = ("/tmp", "/root", "/srv/aide", "/etc/aide-compare", "/var/lib/aide", STORE)
# Their messages and options are those of the program, which tests/pages/test_manual.py tries.
OF_THE_PROGRAM = ("man/aide-compare-program.8", "man/aide-compare.conf.5", "man/aide-compare.1")
CHECK = "check_aide_compare"
# What stands for any text in a message.
ANY = re.compile(r"\b[A-Z]+\b|\b\d+\b|\.\.\.")
# What a module says of itself is no message; and where one literal goes on in the next line.
PROSE = re.compile(r'^\s*""".*?"""$|^\s*#.*?$', re.M | re.S)
JOINT = re.compile(r"""(['"])\s*\n\s*[bf]*\1""")
# What a page has besides the options of its own command: those of a form.
ALSO = {"man/aide-compare-status.1": ["status", "--format", "prometheus"]}
# These are comparisons, whose own page has the options that they share with all.
COMPARISONS = tuple(f"aide-compare-{name}.1" for name in ("json", "mail", "page"))
# The commands of a page that is about several.
SEVERAL = {
    "aide-compare-compare": [["compare"], ["show"], ["sort"]],
    "aide-compare-status": [["status"], [CHECK]],
}
COMPARE = "aide-compare -E -c compare.conf"
ADDED = HEAD + "/a 100644 5 MA== 4\n@@end_db\n"
EMPTY = HEAD + "@@end_db\n"
# The words of a row of the table of statuses: old and new database, and the command.
STATUSES = [
    ("no difference", OLD, OLD, COMPARE),
    ("(`-D`) a configuration without an error", OLD, NEW, "aide-compare -D -c compare.conf"),
    ("added (%d)", EMPTY, ADDED, COMPARE),
    ("removed (%d)", ADDED, EMPTY, COMPARE),
    ("changed (%d)", ADDED, ADDED.replace(" 5 ", " 6 "), COMPARE),
    ("the command line is not understood", OLD, NEW, "aide-compare --no-such-option"),
    (
        "the configuration or the list has an error",
        OLD,
        NEW,
        COMPARE + " -A report_level=no_such_level",
    ),
    ("a file could not be opened", OLD, NEW, COMPARE + " -A database_new=file:/no/such/file"),
    (
        "a database changed while a report was made of it",
        OLD,
        NEW,
        f"zcat -f new.gz | {COMPARE} -A database_new=file:/dev/stdin",
    ),
    ("of the programs is not UTF-8", OLD, NEW, COMPARE + " -A \"$(printf 'report_url=\\377')\""),
    ("a database has an error", OLD, "no database\n", COMPARE),
]


def like(text: str) -> list[str]:
    """The words of a text, with the same letter for each number."""
    return re.sub("[0-9]+", "N", text.replace(",", "")).split()


class PagesTest(MachineTest):
    """A machine on which every database and configuration is there that a page names."""

    def fill(self, old: str = OLD, new: str = NEW) -> None:
        for name in FRESH:
            shutil.rmtree(self.path(name), ignore_errors=True)
            os.makedirs(self.path(name), 0o700)
        os.makedirs(self.path(os.path.dirname(STATE)))
        for name, text in (("old", old), ("new", new)):
            for path in (f"/tmp/{name}.gz", f"/tmp/{name}.db.gz"):
                self.write(path, gzip.compress(text.encode()))
            for path in (f"/tmp/{name}.db", f"/var/lib/aide/{name}.db", f"/srv/aide/www.{name}"):
                self.write(path, text)
        self.put_pair(old, new)
        self.write("/tmp/www.db", old)
        self.write(STORE + "/hosts/www/aide.db", old, 0o600)
        os.makedirs(self.path("/remote"), exist_ok=True)
        if not os.path.lexists(self.path("/remote/www")):
            os.symlink(self.path("/var/lib/aide"), self.path("/remote/www"))
        # What another program has left out of order.
        lines = new.splitlines(True)
        self.write("/tmp/mixed.db", "".join(lines[:2] + lines[2:-1][::-1] + lines[-1:]))
        names = "database_in=file:{0}/old.db\ndatabase_new=file:{0}/new.db\n"
        self.write("/tmp/compare.conf", names.format(self.path("/tmp")))
        self.write(HOSTS, "www\n")
        self.clone()

    def run_block(self, block: Block) -> None:
        status = block.values("run")[0]
        if "jq" in block.text:
            self.needs("jq")
        self.fill()
        done = self.shell("\n".join(["set -u", *block.values("before"), block.text]))
        self.assertEqual(done.status, int(status), done)
        for text in block.values("prints"):
            self.assertIn(text, done.output_text + done.error_text)

    def compare_shown(self, block: Block) -> None:
        """A block that is the output of a command."""
        self.fill()
        done = self.shell("\n".join([*block.values("before"), *block.values("is output of")]))
        self.assertEqual(like(done.output_text), like(block.text), done)

    def try_page(self, page: str) -> None:
        for block in blocks_of(page):
            with self.subTest(f"{page}:{block.line}"):
                kinds = [
                    kind
                    for kind in ("run ", "is output of ", "not run: ", "try: ")
                    if any(mark.startswith(kind) for mark in block.marks)
                ]
                self.assertEqual(len(kinds), 1, f"how is this tried? {block.text}")
                if kinds[0] == "run ":
                    self.run_block(block)
                elif kinds[0] == "is output of ":
                    self.compare_shown(block)


class BlocksTest(PagesTest):
    def test_readme(self) -> None:
        self.try_page("README.md")

    def test_examples(self) -> None:
        self.try_page("examples/README.md")

    def test_manual_pages(self) -> None:
        self.assertGreater(len(MANUALS), 10)
        for page in MANUALS:
            self.try_page(page)

    def test_rules_for_alarms(self) -> None:
        """Each metric of the rules is one that is written."""
        blocks = [
            block for block in blocks_of("man/aide-compare-status.1") if "expr:" in block.text
        ]
        self.fill()
        name = "/var/lib/prometheus/node-exporter/aide.prom"
        self.shell("aide-compare --state state")
        self.shell(f"aide-compare status --state state --format prometheus {name}")
        self.assertGreater(len(blocks), 0)
        for metric in set(re.findall(r"\baide_compare_\w+", "".join(b.text for b in blocks))):
            self.assertIn(f"\n{metric} ", self.text_at(name))

    def test_statuses(self) -> None:
        """Each status of README's table is made to happen, in the row whose words say so."""
        rows = re.findall(
            r"^\| (\d[\d, ]*?)(?: and their sums)? \| (.*) \|$", read("README.md"), re.M
        )
        seen = set()
        for words, old, new, command in STATUSES:
            self.fill(old, new)
            status = str(self.shell(command).status)
            with self.subTest(words):
                numbers, row = next(row for row in rows if words.split("%d")[0] in row[1])
                parts = row.split("; ")
                if "%d" in words:
                    self.assertIn(words % int(status), row)
                elif len(parts) > 1:
                    place = next(at for at, part in enumerate(parts) if words in part)
                    self.assertEqual(numbers.split(", ")[place], status)
                else:
                    self.assertEqual(numbers, status)
            seen.add(status)
        self.assertEqual(seen, {one for numbers, _ in rows for one in numbers.split(", ")})


def commands_of(page: str) -> list[list[str]]:
    """The words of each command that a page is about."""
    name = os.path.basename(page).rpartition(".")[0]
    if name == "aide-compare-hosts":
        return [["hosts", one] for one in "add list remove compare accept report".split()]
    return SEVERAL.get(name, [name.split("-", 3)[2:]])


def listed_by(command: list[str]) -> set[str]:
    """The options that `--help` of a command lists."""
    text = helped("--help", main=check) if command == [CHECK] else helped(*command, "--help")
    lines = re.findall(r"^ {1,8}(-\S.*?)(?:  .*)?$", text.decode(), re.M)
    return {name for line in lines for name in re.findall(r"(?:^|, )(--?[A-Za-z][\w-]*)", line)}


def section(page: str, title: str) -> str:
    """The text of a section of a manual page."""
    return read(page).partition(f"\n.Sh {title}\n")[2].partition("\n.Sh ")[0]


def entries_of(text: str) -> list[str]:
    """The entries of lists of options."""
    return re.findall(r"^\.It (Fl .*)$", text.replace("\\\n", ""), re.M)


def named_in(text: str) -> set[str]:
    return {"-" + name for name in re.findall(r"(?:\bFl|,) (?!Fl\b)(-?[A-Za-z][\w-]*)", text)}


class WordsTest(unittest.TestCase):
    """What the manual pages name is what the commands have."""

    def test_messages(self) -> None:
        """The messages that the pages list are in the text of the modules."""
        files = glob.glob(os.path.join(TOP, "commands/lib/**/*.py"), recursive=True)
        text = "".join(JOINT.sub("", PROSE.sub("", read(path))) for path in files)
        for page in set(MANUALS) - set(OF_THE_PROGRAM):
            named = re.findall(r'^\.It Li "(.*)"$|^\.Ql (aide-compare.*:.*) \.$', read(page), re.M)
            for message in [plain(entry or word) for entry, word in named]:
                with self.subTest(f"{page}: {message}"):
                    for piece in ANY.split(message):
                        self.assertIn(piece.strip(" :"), text)

    def test_options(self) -> None:
        """Commands and their pages have the same options, but for common ones, and each is in some
        test."""
        tests = glob.glob(os.path.join(TOP, "tests", "**", "*.py"), recursive=True)
        tried = set(re.findall(r"--[a-z][\w-]*", "".join(map(read, tests))))
        in_each = {"-h", "--help", "--version"}
        common = named_in("\n".join(entries_of(section("man/aide-compare.1", "COMMON OPTIONS"))))
        everywhere = set(in_each)
        for page in set(MANUALS) - set(OF_THE_PROGRAM):
            named = named_in("\n".join(entries_of(read(page)))) - in_each
            listed = set().union(*map(listed_by, commands_of(page))) - in_each
            more = listed_by(ALSO[page]) if page in ALSO else set()
            everywhere |= listed
            with self.subTest(page):
                self.assertGreater(len(listed), 1)
                is_comparison = os.path.basename(page) in COMPARISONS
                others = listed_by(["compare"]) if is_comparison else set()
                self.assertFalse(listed - others - named - common, "the page has no entry")
                self.assertFalse(named - listed - more, "no command has it")
                self.assertFalse({name for name in listed - tried if len(name) > 2}, "untested")
        self.assertFalse(common - everywhere, "common, and no command has it")

    def test_defaults(self) -> None:
        """The pages of a comparison and its mail name the options of the administrator's file."""
        for name, table, begin, end in (
            ("compare", COMPARISON_DEFAULTS, "\ntakes\n", "from there"),
            ("mail", MAIL_DEFAULTS, "also come\n", "\nis without"),
        ):
            page = section(f"man/aide-compare-{name}.1", "DEFAULTS")
            text = page.partition(begin)[2].partition(end)[0]
            with self.subTest(name):
                self.assertEqual(named_in(text), {option.name for option in table})
