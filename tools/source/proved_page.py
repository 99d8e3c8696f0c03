"""Makes the blocks and tables of docs/PROVED.md from the definitions as they are now: the clauses of
the two public calls, the theorem about the lines, and the definitions that decide what is silent,
each with its examples. The prose is that of the page.

A name that the page does not print is in its list of names, beside its file.
"""
from __future__ import annotations

from tests.lib.scratch import read
from tools.source.definitions import WORD, Definitions, Place, Places, crates, imports_of
from tools.source.headline_page import (
    COMPARE,
    LAWS,
    PROGRAM,
    Page,
    fields_of,
    law_of,
)
from tools.source.headline_tables import types_in
from tools.source.worked_examples import ENTRIES, examples_of

PROVED = "docs/PROVED.md"
RECORD = "crates/aide_line_run/specs/LinesRun.antt"
NAMES = "Names that this page does not print"
THEOREM = "a_trusted_run_says_all"
# What the theorem says of lines: printed without what it uses.
SAID = [("aide_line_laws", "OverMaps", "SayAll")]
SILENT = ("aide_line_laws", "OverMaps", "IsAccount")
# What decides is printed of these crates, and of others only these names.
DECIDES = ("aide_line_laws", "aide_agreement")
ALSO = [("aide_fields", "Attributes", name) for name in ("Attributes", "type_in")]
# What these mean, their names and the examples of their users show.
SHOWN = [
    ("aide_agreement", "Own", name)
    for name in ("directory_attrs", "is_digest", "least_bytes", "link_attrs", "own_attrs")
]


def silent(definitions: Definitions) -> tuple[Places, Places]:
    """The definitions that decide what is silent, and the others that these use."""
    order, _ = definitions.reached([SILENT])
    stops = [place for place in order if place[0] not in DECIDES and place not in ALSO]
    stops += SHOWN
    return definitions.reached([SILENT], stops)[0], stops


def used_by(definitions: Definitions, places: Places) -> tuple[Places, Places]:
    """What these definitions name: definitions, and what is elsewhere."""
    inside: Places = []
    outside: Places = []
    for place in places:
        used, others = definitions.used_by(place)
        inside += used
        outside += others
    return inside, outside


def names_of(places: Places, outside: Places, printed: Places) -> list[str]:
    """A list of the files whose definitions, or types of the code, the page names and does not
    print, with these names."""
    names: dict[str, list[str]] = {}
    for crate, file, name in sorted({*places} - {*printed}):
        path = f"crates/{crate}/specs/{file.replace('.', '/')}.antt"
        names.setdefault(path, []).append(f"`{name}`")
    for crate, module, name in sorted(types_in(outside)):
        names.setdefault(f"crates/{crate}/src/{module}.rt", []).append(f"`{name}`")
    return [f"- `{path}`: {', '.join(inside)}" for path, inside in names.items()]


def proved() -> str:
    """The page."""
    definitions = Definitions(crates())
    page = Page(definitions, read(PROVED), examples=examples_of(ENTRIES), has_heads=False)
    named: Places = []
    calls = (COMPARE, "compare_databases"), (PROGRAM, "run_program")
    for (file, _), contract in zip(calls, page.contracts(*calls)):
        named += definitions.named_by(WORD.findall(contract), imports_of(read(file)))[0]
    cut = "\n".join(fields_of(read(RECORD), ["cut"]))
    for file, text in ((LAWS, law_of(read(LAWS), THEOREM)), (RECORD, cut)):
        page.blocks.append(text)
        named += definitions.named_by(WORD.findall(text), imports_of(read(file)))[0]
    page.blocks.append("\n".join(page.shown(SAID))[1:])
    decide, stops = silent(definitions)
    page.blocks.append("\n".join(page.shown(decide))[1:])
    printed = [*SAID, *decide]
    inside, outside = used_by(definitions, printed)
    there: list[Place] = [place for place in [*named, *inside] if definitions.has(place)]
    page.sections[NAMES] = names_of(there, used_by(definitions, decide)[1], printed)
    return page.text()
