"""Which line of a list leaves out a change, and which line is refused."""
from __future__ import annotations

import json

from tests.planned import lines, list_rows
from tests.planned.databases import EMPTY
from tests.planned.faults import PATHS
from tests.planned.lines import LinesTest
from tests.planned.plans import Call, Session
from tests.planned.driver import sink_of

COLUMNS = b"@@begin_db\n@@db_spec name perm uid gid acl%s\n"


def database(entry: bytes, has_capabilities: bool = True) -> bytes:
    """A database of one entry or none, with the column of capabilities or without it."""
    columns = COLUMNS % (b" capabilities" if has_capabilities else b"")
    fields = entry if has_capabilities else entry.rpartition(b" ")[0]
    return columns + (fields + b"\n" if entry else b"") + b"@@end_db\n"


class ListsTest(LinesTest):
    def is_left_out(self, label: str, rules: bytes, old: bytes, new: bytes, line: int) -> None:
        """The lines are those that the definitions want, and tell this line of the list."""
        given = lines.given_of([old, new, EMPTY, EMPTY], rules)
        seen = self.play(given.run()).first
        self.compare(label, self.good(seen, given))
        told = json.loads(seen.sink.sent.splitlines()[1]).get("left_out", 0)
        self.holds(f"{label}: line {line}", told == line, told)

    def test_paths(self) -> None:
        for rules, path, is_program, line in list_rows.PATHS:
            entry = b"%s %s 0 0 0 0" % (path, b"100755" if is_program else b"100644")
            label = f"{rules!r}, {path!r}, {is_program}"
            self.is_left_out(label, rules, database(b""), database(entry), line)

    def test_changes(self) -> None:
        for rules, old, new, line in list_rows.CHANGES:
            label = f"{rules!r}, {old!r}, {new!r}"
            self.is_left_out(label, rules, database(old), database(new), line)

    def test_columns(self) -> None:
        """Programs of databases without capabilities."""
        for old, new, of_old, of_new, line in list_rows.MEASURED:
            label = f"{old!r} {of_old}, {new!r} {of_new}"
            sides = database(old, of_old), database(new, of_new)
            self.is_left_out(label, list_rows.ALL, *sides, line)

    def test_few_columns(self) -> None:
        """Databases that do not tell the owner of an entry."""
        text = b"@@begin_db\n@@db_spec %s\n%s\n@@end_db\n"
        for rules, old, new, line in list_rows.COLUMNS:
            self.is_left_out(f"{rules!r}, {old}, {new}", rules, text % old, text % new, line)

    def test_refused(self) -> None:
        for rules, line, said in list_rows.REFUSED:
            words = [b"-E", b"-c", b"/conf", b"--without", rules]
            session = Session(words, {b"/conf": PATHS}, call=Call.RUN_LINES_PROGRAM)
            printed = self.driver.one(session)
            errors = sink_of(printed[3][1], printed[4][1]).sent
            self.holds(f"{rules!r}", errors == b"aide: list:%d: %s\n" % (line, said), errors)
