"""Makes the page of the headlines from the definitions as they are now: the report of two
databases, what the lines of JSON say of them, what a list leaves out, and what the call that writes
lines promises. Nobody commits it.

The prose is that of tools/source/headline.md, one part for each headline. From the contracts of
`aide_headline`, and from the laws of `aide_line_laws`, this follows each name to its definition,
and from there to the definitions that it uses. A definition comes before those that it uses.
"""
from __future__ import annotations

import re
import sys
from collections.abc import Sequence

from tests.lib.scratch import read
from tools.source.definition_lines import shown, users_first, wrapped
from tools.source.definitions import WORD, Definitions, Place, Places, crates, imports_of
from tools.source.headline_tables import check_words, members_of, types_of
from tools.source.worked_examples import ENTRIES, LISTS, examples_of, things_of

TEMPLATE = "tools/source/headline.md"
OF_LINES = ("a_trusted_run_says_all", "a_run_says_all", "a_fault_leaves_lines_unfinished")
OF_LISTS = (
    "entries_come_first",
    "rights_are_told",
    "empty_list_is_none",
    "longer_list_keeps",
    "outcome_is_without_list",
)
LAWS = "crates/aide_line_laws/proofs/RunMapLaws.antt"
LIST_LAWS = "crates/aide_line_laws/proofs/ListLaws.antt"
COMPARE = "crates/aide_headline/src/comparison.rt"
PROGRAM = "crates/aide_headline/src/program.rt"
PROGRAM_LINES = "crates/aide_headline/src/lines_program.rt"
RUN_RECORD = "crates/aide_report/specs/Run.antt"
# What contracts see of a desk, which no clause names by its type.
DESK = ("aide_db", "DeskView", "DeskView")
# What a configuration means and what arguments ask for are premises of the second call. Their
# definitions are not printed.
PREMISES = [("aide_conf", "ReadResult", "ReadsAs"), ("aide_words", "Job", "job_of")]
PREMISES_TRUSTED = [("aide_words", "LineJob", "line_job_of")]
# The map of a text, which the second page has in a part of its own.
MAP = ("aide_db", "Map", "database_of")
# What the page of lists has, and the page of the theorem leaves to it.
LEFT_OUT = ("aide_left_out", "Meaning", "IsLeftOut")
NAMES = ("aide_patterns", "Rules", "IsFirst")
RIGHTS = ("aide_left_out", "Meaning", "GivesRight")
RULE = ("aide_patterns", "Line", "RuleText")
READING = ("aide_patterns", "List", "IsReading")
MEASURES = ("aide_line_run", "Listed", "measures_between")
# Which texts are sound databases, which the page of the report has.
SOUND = ("aide_db", "Database", "IsSound")
# What lines of JSON are as texts, which the page of the calls has.
JSON = ("aide_line_laws", "JsonLine", "AreJsonLines")
# The entry of a line, and which columns and entry lines a text has, which the page of the report has.
ENTRIES_OF_TEXTS = [
    ("aide_entry", "Entry", "entry_of"),
    ("aide_db", "Giving", "columns_of_text"),
    ("aide_db", "Giving", "entry_lines"),
]
# The records of a run, and what contracts see of devices, which the page of the theorem leaves out.
RUNS = [
    ("aide_line_run", "LinesRun", "IsLinesRun"),
    ("aide_line_run", "PairSeen", "PairSeen"),
    ("aide_line_run", "PairSeen", "Gives"),
    ("aide_merge", "Seen", "SinkSeen"),
    ("aide_merge", "Asked", "Asked"),
]


TYPES = "Types of the code"
# A block of a page, between its fences.
BLOCK = re.compile(r"(```\w+\n).*?(\n```\n)", re.S)


def contract_of(text: str, name: str) -> str:
    """A public function without its body: the line that names it, its arguments and its clauses."""
    begin = text.index("pub fn %s<" % name)
    return text[begin : text.index("\n{\n", begin)]


def law_of(text: str, name: str) -> str:
    """What a law says: its name and its type."""
    found = re.search(rf"^( *)(pub {name} :.*?)\n\1(?:unfolding|{name})\b", text, re.S | re.M)
    if found is None:
        sys.exit(f"no law {name}")
    return found.group(2).replace("\n" + found.group(1), "\n")


def fields_of(text: str, names: list[str]) -> list[str]:
    """The fields of a record by their names."""
    fields = re.findall(r"^  pub (\w+)( :.*(?:\n      .*)*)", text, re.MULTILINE)
    return [name + rest for name, rest in fields if name in names]


class Page:
    """A page, block by block: each definition is printed once."""

    def __init__(
        self,
        definitions: Definitions,
        template: str,
        printed: Sequence[Place] = (),
        examples: dict[Place, list[str]] | None = None,
        has_heads: bool = True,
    ) -> None:
        self.definitions = definitions
        self.examples = {} if examples is None else examples
        self.template = template
        self.has_heads = has_heads
        self.blocks: list[str] = []
        self.sections: dict[str, list[str]] = {}
        self.printed = list(printed)
        self.outside: list[Place] = []

    def text(self) -> str:
        """The template with these blocks and sections in place of those that it has."""
        blocks = iter(self.blocks)
        text = BLOCK.sub(lambda found: found[1] + next(blocks) + found[2], self.template)
        if next(blocks, None) is not None:
            sys.exit(f"a page has {len(BLOCK.findall(text))} blocks, not {self.blocks}")
        for title, lines in self.sections.items():
            section = re.compile(rf"(?<=\n## {title}\n\n).*?(?=\n## |\Z)", re.S)
            text = section.sub(lambda _: "\n".join(lines) + "\n", text)
        return text

    def contracts(self, *calls: tuple[str, str]) -> list[str]:
        """A block for the contract of each of these calls, which have a file and a name."""
        contracts = [contract_of(read(file), name) for file, name in calls]
        self.blocks += contracts
        return contracts

    def part(self, contract: str, imports: dict[str, Place], stops: Sequence[Place] = ()) -> None:
        """A block with the definitions that a contract needs and that are not on the page yet."""
        first, named = self.definitions.named_by(WORD.findall(contract), imports)
        order, outside = self.definitions.reached(
            first + [DESK] if "desk." in contract else first, stops
        )
        self.outside += [each for each in named + outside if each not in self.outside]
        new = [place for place in order if place not in self.printed]
        self.printed += new
        self.blocks.append("\n".join(self.shown(new))[1:])

    def things(self, file: str) -> None:
        """A block with the entries or lists that examples are about."""
        self.blocks.append("\n".join(things_of(file)))

    def shown(self, places: Places) -> list[str]:
        """Lines with these definitions by file, users first."""
        files = list(dict.fromkeys(place[:2] for place in places))
        users = {
            file: {place[:2] for place in places if self.uses_file(place, file)} for file in files
        }
        lines: list[str] = []
        for file in users_first(files, users):
            title = f"crates/{file[0]}/specs/{file[1].replace('.', '/')}.antt"
            if self.has_heads:
                title = f"==== {title}: {self.definitions.files[file].head}"
            lines += ["", *wrapped(title, "-- ")]
            inside = [place for place in places if place[:2] == file]
            among = {
                one: {other for other in inside if one in self.definitions.used_by(other)[0]}
                for one in inside
            }
            for place in users_first(inside, among):
                lines += shown(self.definitions.definition(place))
                lines += self.examples.pop(place, [])
        return lines

    def uses_file(self, place: Place, file: tuple[str, ...]) -> bool:
        return any(used[:2] == file for used in self.definitions.used_by(place)[0])


def theorem(definitions: Definitions, template: str, examples: dict[Place, list[str]]) -> Page:
    """The part about what lines say of the databases, and each definition that its laws rest on. It
    takes the examples of these away."""
    text = read(LAWS)
    laws = [law_of(text, name) for name in OF_LINES]
    made = Page(definitions, template, examples=examples)
    made.blocks.append("\n\n".join(laws))
    silent = {name: ("aide_line_laws", "OverMaps", name) for name in ("IsAccount", "differ_beyond")}
    made.part(" ".join(silent), silent)
    stops = [*RUNS, MAP, LEFT_OUT, MEASURES, RULE, JSON, SOUND]
    made.part("\n".join(laws), imports_of(text), stops)
    made.part(MAP[2], {MAP[2]: MAP}, ENTRIES_OF_TEXTS)
    made.things(ENTRIES)
    return made


def lists(definitions: Definitions, template: str, printed: Places) -> Page:
    """The part about what a list leaves out, with the definitions that are not printed yet."""
    text = read(LIST_LAWS)
    made = Page(definitions, template, printed, examples_of(LISTS))
    made.blocks.append("\n\n".join(law_of(text, name) for name in OF_LISTS))
    parts: dict[Place, Places] = {
        LEFT_OUT: [NAMES],
        RIGHTS: [],
        MEASURES: [],
        NAMES: [],
        READING: [],
    }
    for place, stops in parts.items():
        made.part(place[2], {place[2]: place}, stops)
    made.things(LISTS)
    return made


def whole() -> str:
    """The page: its four parts, one after the other."""
    definitions, record = Definitions(crates()), read(RUN_RECORD)
    of_report, of_theorem, of_lists, of_lines = re.split(r"(?m)^(?=# )", read(TEMPLATE))[1:]
    examples = examples_of(ENTRIES)
    silent = theorem(definitions, of_theorem, examples)
    made = Page(definitions, of_report, examples=examples)
    compare, program = made.contracts((COMPARE, "compare_databases"), (PROGRAM, "run_program"))
    made.part(compare, imports_of(read(COMPARE)))
    made.part(program, imports_of(read(PROGRAM)), PREMISES)
    printed = list(made.printed)
    unseen = "\n".join(fields_of(record, ["consistent", "opens_told"]))
    made.blocks.append(unseen)
    made.part(unseen, imports_of(record))
    made.sections["What contracts see of the sources, the site and the sinks"] = members_of(
        [compare, program]
    )
    made.sections[TYPES] = types_of(made.outside)
    silent.sections[TYPES] = types_of(silent.outside, made.outside)
    listed = lists(definitions, of_lists, [*printed, *silent.printed])
    listed.sections[TYPES] = types_of(listed.outside, made.outside + silent.outside)
    lines = Page(definitions, of_lines, [*printed, *listed.printed])
    (program,) = lines.contracts((PROGRAM_LINES, "run_lines_program"))
    lines.part(program, imports_of(read(PROGRAM_LINES)), PREMISES + PREMISES_TRUSTED)
    lines.part(JSON[2], {JSON[2]: JSON})
    lines.sections[TYPES] = types_of(lines.outside, made.outside)
    for file, left in ((ENTRIES, examples), (LISTS, listed.examples)):
        if left:
            sys.exit(f"{file}: the page has no {[place[2] for place in left]}")
    every = (made, silent, listed, lines)
    text = "".join(page.text() for page in every)
    check_words([word for page in every for word in page.outside], text)
    return text
