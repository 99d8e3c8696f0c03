"""Random pairs of databases: all columns and forms of fields, edits, and faults of every kind."""
from __future__ import annotations

import base64
import random
from typing import Any, Union

from tests.oracle.attributes import ATTRIBUTES
from tests.oracle.database import order_of
from tests.program.field_rows import REFUSED

# The form of a column's fields, and the columns of a database.
Form = Union[str, tuple[int, int]]
Columns = list[tuple[bytes, Form]]
# The values of an entry by its columns, and the entries by their paths.
Row = dict[bytes, Any]
Rows = dict[bytes, Row]

PIECES = b"|a|b|a-b|a.b|ab|B|etc|%41|%zz|#x|@|a b|\xc3\xa9|\xff|\x01|\n|\\|\x7f|0".split(b"|")
PIECES += [b".a", b"bc", b"]"]
NUMBERS = [0, 1, -1, 7, 10, 4096, 1234567890, 2**31]
# The greatest and the least that a field may have, and those of half of the bits.
NUMBERS += [2**63 - 1, 2**63, 2**64 - 1, -(2**63)]
MODES = [
    int(mode, 8)
    for mode in (
        "100644 100755 100600 40755 120777 20600 60660 10644 140755 644 100000 4100755 170644"
        " 37777777777 0"
    ).split()
]
BITS = [0, 0, 2**64 - 1, 4095, 4094, 316, 2**40 + 36, 32]
LINKS: list[bytes | None] = [None, None]
LINKS += b"|0|0-|00|target|../x y|%41|\xff|a\nb|\\|-".split(b"|")
# A name that fills a piece of the details, and one that has a byte more.
LINKS += [b"x" * 32, b"x" * 33]
OPAQUE = b"1|abc|0-|POSIX\\x|\xc3\xa9|\x01\x02|#|%41|POSIX,dXNlcg==,0".split(b"|")
OPAQUE += [b"x" * 31, b"x" * 32, b"x" * 33]
UNKNOWN = [b"foo", b"caps", b"ftype", b"Size", b"linkcount", b"foo", b"l", b"%6eame"]
# Fields that are refused by what is said of them, and those of modes.
BAD_FIELDS = {
    said: [field for column, field, other in REFUSED if other == said and column != b"perm"]
    for said in ("bad number", "bad time", "bad digest")
}
BAD_MODES = [field for column, field, _ in REFUSED if column == b"perm"]
BREAKS = "cut byte drop double exchange order more less name spec stray long".split()
BREAKS += 6 * ["field"]
BAD_SPECS = [b"", b" size", b" name name", b" name size size", b" name" + b" x" * 64, b" Name size"]
STRAYS = b"@@begin_db|@@db_spec name|@@foo|@@|@@end_dbx|@@end_db|@ x|/a|x".split(b"|")


def random_path(pick: random.Random) -> bytes:
    return b"/" + b"/".join(pick.choice(PIECES) for _ in range(pick.randint(1, 3)))


def random_digest(pick: random.Random, least: int, most: int) -> bytes | None:
    if pick.random() < 0.3:
        return None
    size = pick.randint(least, most)
    other = bytes(pick.getrandbits(8) for _ in range(size))
    return pick.choice([bytes(size), b"\xab" * size, other])


def random_value(pick: random.Random, form: Form) -> Any:
    """A value of a form, and None where an entry has none."""
    if form in ("type", "perm"):
        return pick.choice(MODES)
    if form in ("number", "time"):
        return pick.choice(NUMBERS)
    if form == "link":
        return pick.choice(LINKS)
    if form == "opaque":
        return pick.choice([None, *OPAQUE])
    return random_digest(pick, *form)


def escaped(pick: random.Random, name: bytes) -> bytes:
    often = pick.choice([0, 0, 0.3])
    form = pick.choice([b"%%%02x", b"%%%02X"])
    must = b" \t\n%"
    return b"".join(
        form % byte if byte in must or pick.random() < often else bytes([byte]) for byte in name
    )


def spelled_number(pick: random.Random, number: int) -> bytes:
    digits = b"%d" % abs(number)
    noughts = b"0" * (5000 if pick.random() < 0.002 else pick.choice([0, 0, 0, 1, 2, 25]))
    return (b"-" if number < 0 or number == 0 and pick.random() < 0.1 else b"") + noughts + digits


def spelled(pick: random.Random, form: Form, value: Any) -> bytes:
    if form in ("type", "perm"):
        return b"0" * pick.choice([0, 0, 1, 20]) + b"%o" % value
    if form == "number":
        return spelled_number(pick, value)
    if form == "time":
        number = spelled_number(pick, value)
        text = base64.b64encode(number)
        return text if pick.random() < 0.6 and len(text) <= 44 else number
    if form == "link":
        if not value:
            return b"0" if value is None else b"0-"
        return b"0" + escaped(pick, value) if value.startswith(b"0") else escaped(pick, value)
    if form == "opaque" or value is None:
        return value or b"0"
    return base64.b64encode(value)


def random_row(pick: random.Random, columns: Columns) -> Row:
    """Values for the columns that have a form."""
    return {
        column: random_value(pick, form)
        for column, form in columns
        if form not in ("name", "attr", "unknown")
    }


def random_columns(pick: random.Random) -> Columns:
    """The columns of a database as (column, form) pairs, the name's form being 'name'."""
    known = {attribute.column.encode(): attribute.form for attribute in ATTRIBUTES}
    count = pick.choice([0, 1, 2, 4, 8, len(known)])
    columns = pick.sample(sorted(known.items()), count) + [(b"name", "name")]
    if pick.random() < 0.6:
        columns.append((b"attr", "attr"))
    if pick.random() < 0.2:
        columns += [(name, "unknown") for name in pick.sample(UNKNOWN, pick.randint(1, 4))]
    if pick.random() < 0.8:
        pick.shuffle(columns)
    return columns


def random_entries(pick: random.Random, columns: Columns) -> Rows:
    """A map from paths to rows of values."""
    bits = pick.choice(BITS)
    entries = {}
    for _ in range(pick.choice([0, 1, 2, 3, 6, 10])):
        row = random_row(pick, columns)
        row[b"attr"] = bits if pick.random() < 0.8 else pick.getrandbits(12)
        entries[random_path(pick)] = row
    return entries


def edited(pick: random.Random, columns: Columns, entries: Rows) -> Rows:
    """The same entries, some of them changed, gone or new."""
    few = pick.choice([0, 0.1, 0.4])
    kept = {path: dict(row) for path, row in entries.items() if pick.random() >= few}
    kept.update(
        (path, row) for path, row in random_entries(pick, columns).items() if pick.random() < few
    )
    for row in kept.values():
        for column, form in columns:
            if form == "attr" and pick.random() < few:
                row[b"attr"] = row[b"attr"] ^ 1 << pick.randrange(13)
            elif form not in ("name", "attr", "unknown") and pick.random() < few:
                row[column] = random_value(pick, form)
    return kept


def line_of(pick: random.Random, columns: Columns, path: bytes, row: Row) -> bytes:
    fields = []
    for column, form in columns:
        if form == "name":
            fields.append(escaped(pick, path))
        elif form == "attr":
            fields.append(b"%d" % row[b"attr"])
        elif form == "unknown":
            fields.append(pick.choice([b"x", b"0", b"\xff"]))
        else:
            fields.append(spelled(pick, form, row[column]))
    blank = pick.choice([b" ", b" ", b" ", b"\t", b"  \t"])
    front = pick.choice([b"", b"", b"", b" "])
    return front + blank.join(fields) + pick.choice([b"", b"", b" ", b"\t"])


def lines_of_database(pick: random.Random, columns: Columns, entries: Rows) -> list[bytes]:
    lines = [b"@@begin_db" + pick.choice([b"", b"", b" now"])]
    lines.append(b"@@db_spec " + b" ".join(column for column, _ in columns))
    lines += [line_of(pick, columns, path, entries[path]) for path in sorted(entries, key=order_of)]
    lines.append(pick.choice([b"@@end_db", b"@@end_db", b" @@end_db x"]))
    for _ in range(pick.choice([0, 0, 0, 1, 3])):
        place = pick.randint(0, len(lines))
        lines.insert(place, pick.choice([b"", b" \t", b"# comment", b"\t#", b"#"]))
    return lines


def bad_field(pick: random.Random, columns: Columns, lines: list[bytes]) -> None:
    """The lines with a field that has not its column's form."""
    whole = [
        place
        for place, line in enumerate(lines)
        if b"/" in line and not line.strip().startswith((b"@", b"#"))
    ]
    place, column = pick.choice(whole or [0]), pick.randrange(len(columns))
    fields, form = lines[place].split(), columns[column][1]
    bad = BAD_FIELDS["bad number"]
    if form in ("type", "perm"):
        bad = BAD_MODES
    elif form == "time":
        bad = BAD_FIELDS["bad time"]
    elif isinstance(form, tuple):
        bad = BAD_FIELDS["bad digest"]
    if len(fields) == len(columns):
        fields[column] = pick.choice(bad)
        lines[place] = b" ".join(fields)


def broken(
    pick: random.Random, columns: Columns, lines: list[bytes], text: bytes, way: str
) -> bytes:
    """A text with something done to it that mostly makes it faulty."""
    place, other = pick.randrange(len(lines)), pick.randrange(len(lines))
    if way == "cut":
        return text[: pick.randint(0, len(text))]
    if way == "byte":
        at = pick.randrange(len(text))
        byte = pick.choice([b"\n", b" ", b"@", b"#", b"/", b"\0", b"%", b"0", b"\r", b"="])
        return text[:at] + byte + text[at + 1 :]
    if way == "drop":
        del lines[place]
    elif way == "double":
        lines.insert(place, lines[place])
    elif way == "exchange":
        lines[place], lines[other] = lines[other], lines[place]
    elif way == "field":
        bad_field(pick, columns, lines)
    elif way == "order":
        pick.shuffle(lines)
    elif way == "more":
        lines[place] += b" 0"
    elif way == "less":
        lines[place] = lines[place].rpartition(b" ")[0]
    elif way == "name":
        lines[place] = lines[place].replace(b"/", pick.choice([b"%2f", b"a", b"%2"]), 1)
    elif way == "spec":
        lines = [
            b"@@db_spec" + pick.choice(BAD_SPECS) if line.startswith(b"@@db_spec") else line
            for line in lines
        ]
    elif way == "stray":
        lines.insert(place, pick.choice(STRAYS))
    elif way == "long":
        length = pick.choice([1048573, 1048574, 1048575, 1048576, 70000])
        lines.insert(place, pick.choice([b"#", b"/a "]) + b"x" * length)
    return b"\n".join(lines) + b"\n"


def random_pair(pick: random.Random) -> list[bytes]:
    """The texts of an old and a new database."""
    columns = random_columns(pick)
    entries = random_entries(pick, columns)
    later = columns if pick.random() < 0.7 else random_columns(pick)
    rows = {path: {**random_row(pick, later), **row} for path, row in entries.items()}
    texts = []
    for side, known in ((columns, entries), (later, edited(pick, later, rows))):
        lines = lines_of_database(pick, side, known)
        text = b"\n".join(lines) + pick.choice([b"\n", b"\n", b"", b"\nrest\n@@begin_db\n"])
        if pick.random() < 0.15:
            text = broken(pick, side, lines, text, pick.choice(BREAKS))
        texts.append(text)
    if pick.random() < 0.3:
        texts.reverse()
    return texts if pick.random() < 0.95 else [texts[0], texts[0]]
