"""What the pages of this repository name: links, files, copied code, clauses, tables of files."""
from __future__ import annotations

import glob
import os
import re
import shutil
import subprocess
import unittest

from tests.lib.scratch import TOP, read
from tests.pages.blocks import blocks_of
from tests.source import public_specs
from tools.source import headline_page, proved_page
from tools.source.checker import below, libraries
from tools.source.definitions import Definitions, crates

# The crates whose calls are steps of other crates.
INSIDES = ("aide_merge", "aide_site")
MOST_LINES = {"README.md": 110, proved_page.PROVED: 450}
# Pages for readers of the crates, which cite definitions.
OF_READERS = (
    proved_page.PROVED,
    "docs/dev/ARCHITECTURE.md",
    "docs/dev/CONTRACTS.md",
    "docs/DECISIONS.md",
    "docs/dev/LIBRARY.md",
)
# Pages whose blocks tools/headline makes.
OF_DEFINITIONS = {headline_page.TEMPLATE, proved_page.PROVED}
ENDINGS = r"(?:rt|antt|py|md|sh|c|txt|conf|edit|[15])"
NAMED = re.compile(r"`((?:[\w.-]+/)*[\w.-]+\.%s)`" % ENDINGS)
BELOW = re.compile(
    r"`((?:tests|tools|packaging|commands|docs|crates|examples|contrib|man|bench)/[\w./-]*)`"
)


def tracked() -> list[str]:
    """The files of the repository, by git if it is installed and reads this one."""
    if shutil.which("git"):
        done = subprocess.run(
            ["git", "-C", TOP, "ls-files"], stdout=subprocess.PIPE, stderr=subprocess.DEVNULL
        )
        names = done.stdout.decode().split("\n")[:-1]
        if done.returncode == 0 and names:
            return names
    return [
        os.path.relpath(name, TOP) for name in glob.glob(os.path.join(TOP, "**"), recursive=True)
    ]


def is_there(name: str, paths: list[str]) -> bool:
    """Whether a file or a folder of the repository has this name, or one that ends with it.
    packaging/install puts the examples of contrib/ into examples/ beside the documents."""
    names = (name, name.replace("examples/", "contrib/", 1))
    return any(f"/{each}/" in f"/{path}/" for path in paths for each in names)


def anchors_of(page: str) -> set[str]:
    """What links to the headings of a page end with: small letters, `-` for blanks, no marks."""
    headings = re.findall(r"^#+ (.*)$", re.sub(r"```.*?```", "", page, flags=re.S), re.M)
    return {re.sub(r"[^\w -]", "", heading.lower()).replace(" ", "-") for heading in headings}


def read_text(name: str) -> str:
    """The text of a file, and nothing for one that is no text."""
    try:
        return read(name)
    except (UnicodeDecodeError, IsADirectoryError, FileNotFoundError):
        return ""


def specs_of(crate: str) -> set[str]:
    """The files of a crate's specs/ by their names in imports, without mere lists of others."""
    folder = os.path.join(TOP, "crates", crate, "specs")
    paths = glob.glob(os.path.join(folder, "**", "*.antt"), recursive=True)
    names = {os.path.relpath(path, folder)[: -len(".antt")].replace(os.sep, ".") for path in paths}
    return names - {"Lib", "code.Lib", "code"}


def records() -> dict[str, list[str]]:
    """The names of the fields of each record of the crates' specs/."""
    return {
        name: re.findall(r"^  pub (\w+)", definition.text(), re.M)
        for file in Definitions(crates()).files.values()
        for name, definition in file.definitions.items()
    }


def promised_by(call: str, source: str) -> set[str]:
    """The names of what a call promises: its clauses, and the fields of records in these."""
    text = read(source)
    contract = text[text.index(f"pub fn {call}<") :].split("\n{\n")[0]
    names = set(re.findall(r"ensures (\w+) \{", contract))
    fields = records()
    for word in set(re.findall(r"\w+", contract)):
        names.update(fields.get(word, []))
    return names


class Docs(unittest.TestCase):
    paths = tracked()
    pages = {name: read(name) for name in paths if name.endswith(".md")}

    def test_links_lead_to_files(self) -> None:
        for page, text in self.pages.items():
            for target in re.findall(r"\]\(([^)#]+?)(?:#[^)]*)?\)", text):
                path = os.path.join(TOP, os.path.dirname(page), target)
                self.assertTrue("://" in target or os.path.exists(path), f"{page}: {target}")

    def test_links_lead_to_headings(self) -> None:
        for page, text in self.pages.items():
            for target, heading in re.findall(r"\]\(([^)#:]*)#([^)]+)\)", text):
                path = os.path.normpath(os.path.join(os.path.dirname(page), target))
                there = self.pages[path if target else page]
                self.assertIn(heading, anchors_of(there), f"{page}: {target}")

    def test_files_that_are_named_exist(self) -> None:
        """By their path or the end of it, without built files, and names with NAME in them."""
        for page, text in self.pages.items():
            plain = re.sub(r"```.*?```", "", text, flags=re.S)
            for name in sorted(set(NAMED.findall(plain)) | set(BELOW.findall(plain))):
                is_left_out = "NAME" in name or "/out/" in "/" + name
                is_right = is_left_out or is_there(name.rstrip("/"), self.paths)
                self.assertTrue(is_right, f"{page}: {name}")

    def test_a_copied_file_is_that_file(self) -> None:
        mark = re.compile(r"<!-- from: (\S+) -->\n```\w*\n(.*?)```\n", re.S)
        found = [each for text in self.pages.values() for each in mark.findall(text)]
        self.assertTrue(found)
        for name, block in found:
            self.assertEqual(block, read(name), name)

    def test_each_block_has_a_mark_that_says_how_it_is_tried(self) -> None:
        for page in self.pages.keys() - OF_DEFINITIONS:
            for block in blocks_of(page):
                is_right = block.marks or block.text.startswith(("flowchart ", "sequenceDiagram\n"))
                self.assertTrue(is_right, f"{page}:{block.line}")

    def test_what_is_proved_has_the_definitions_of_now(self) -> None:
        self.assertEqual(self.pages[proved_page.PROVED], proved_page.proved())

    def test_names_of_definitions_are_there(self) -> None:
        """Each name in CamelCase or with `_` that a page for readers of the crates cites is a name
        of the page with all definitions, or of the code."""
        paths = [path for path in self.paths if path.endswith((".rt", ".antt", ".edit", ".py"))]
        texts = [headline_page.whole(), *self.paths, *map(read_text, paths)]
        known = set(re.findall(r"\w+", " ".join(texts)))
        for page in OF_READERS:
            plain = re.sub(r"```.*?```", "", self.pages[page], flags=re.S)
            cited = set(re.findall(r"`(?:\w+::)*(\w*[a-z](?:_\w|[A-Z])\w*)`", plain))
            self.assertEqual(cited - known, set(), page)

    def test_pages_are_not_longer_than_a_person_reads_at_once(self) -> None:
        for name, most in MOST_LINES.items():
            self.assertLessEqual(self.pages[name].count("\n"), most, name)

    def test_specs_are_what_is_promised(self) -> None:
        """A folder `specs/` has just the files that public contracts reach or laws cite, and
        `specs/code/` has the others, which an inside of other crates may cite."""
        found = public_specs.met()
        for crate in crates():
            files = specs_of(crate)
            inside = {name for name in files if name.startswith("code.")}
            laws = glob.glob(os.path.join(TOP, "crates", crate, "proofs", "*Laws.antt"))
            cite = re.compile(rf"^use Rattle\.{crate}\.specs\.(\w+)\.", re.M)
            cited = {name for path in laws for name in cite.findall(read(path))}
            self.assertEqual(files - inside - found[crate] - cited, set(), crate)
            if crate not in INSIDES:
                self.assertEqual(inside & found[crate], set(), crate)

    def test_clauses_that_the_library_page_names(self) -> None:
        sources = {
            "run": "crates/aide_report/src/comparison.rt",
            "run_lines": "crates/aide_line_run/src/run.rt",
            "session": "crates/aide_report_session/src/program.rt",
        }
        page = self.pages["docs/dev/LIBRARY.md"]
        parts = re.split(r"\n### What a caller of `(\w+)` may rely on\n", page)
        self.assertEqual(parts[1::2], list(sources))
        for call, part in zip(parts[1::2], parts[2::2]):
            rows = re.findall(r"^\| .* \| ((?:`\w+`(?:, )?)+) \|$", part, re.M)
            named = set(re.findall(r"`(\w+)`", " ".join(rows)))
            self.assertTrue(named, call)
            self.assertEqual(named - promised_by(call, sources[call]), set(), call)

    def test_crates_that_a_caller_copies(self) -> None:
        """LIBRARY names all crates that a caller of either call needs."""
        copied: set[str] = set()
        for crate, first, last in (
            ("aide_report", "for crate in ", "; do"),
            ("aide_report_session", "A caller of `session` needs ", " too,"),
        ):
            text = self.pages["docs/dev/LIBRARY.md"].partition(first)[2].partition(last)[0]
            copied.update(re.findall(r"\baide_\w+", text))
            self.assertEqual({crate, *below(crate, libraries())} - copied, set(), crate)

    def test_kinds_of_changes_have_texts_that_are_in_files(self) -> None:
        page = self.pages["docs/dev/CONTRACTS.md"]
        part = page.partition("\n## What a change touches\n")[2].partition("\n## ")[0]
        others = [read_text(name) for name in self.paths if name != "docs/dev/CONTRACTS.md"]
        kinds = re.findall(r"^- \*\*([^*]+)\*\*\s+\((`[^)]+`)\)", part, re.M)
        self.assertTrue(kinds)
        for kind, texts in kinds:
            for text in re.findall(r"`([^`]+)`", texts):
                self.assertTrue(any(text in other for other in others), f"{kind}: {text}")
