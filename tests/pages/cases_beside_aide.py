"""What aide-compare-program(8) says of AIDE, as cases: a configuration and two databases, which
tests/pages/beside_aide.py gives to AIDE and to the program."""
from __future__ import annotations

import gzip
from typing import NamedTuple, TypeVar


class Column(NamedTuple):
    """A column of a database, and the bits of its attributes in the column attr."""

    name: str
    bits: tuple[int, ...]


T = TypeVar("T")
Pair = tuple[T, T]
SHA256, I_BIT, ANF, ARF, TYPE, GROWING = 30, 27, 28, 29, 35, 40
CHMOD = ("100644", "100600")
XATTRS, FLAGS = Column("xattrs", (33,)), Column("e2fsattrs", (36,))
SIZE, GROWS, MTIME = Column("size", (5,)), Column("size", (26,)), Column("mtime", (8,))
LOG, LOG_AND_DIGEST = Column("size", (5, GROWING)), Column("size sha256", (5, GROWING, SHA256))
EMPTY = "47DEQpj8HBSa+/TImW+5JCeuQeRkm5NMpJWZG3hSuFU="
OTHER = "A" * 43 + "="
# A rule that takes all entries, and no digests of the databases.
RULES = "/ R\ndatabase_attrs=E\n"
PAIR = "database_in=file:OLD\ndatabase_new=file:NEW\n"
BOTH = PAIR + RULES
# The same by one line of its own for the old database.
NEW_ONLY = "database_new=file:NEW\n" + RULES
WRONG_OLD = "database_in=file:NEW\ndatabase_new=file:NEW\n" + RULES


def database(columns: str, *entries: str) -> str:
    lines = "".join(entry + "\n" for entry in entries)
    return f"@@begin_db\n@@db_spec {columns}\n{lines}@@end_db\n"


def plain(*entries: str) -> str:
    return database("name attr size", *entries)


A, B = plain("/a 32 1", "/b 32 2"), plain("/a 32 1", "/b 32 3")


def entry(fields: str, *bits: int, path: str = "/a", mode: str = "100644") -> str:
    """An entry with these bits in its column attr, and those of its mode and type."""
    return f"{path} {sum(1 << bit for bit in {2, TYPE, *bits})} {mode} {fields}".rstrip()


def of_mode(columns: str, *entries: str) -> str:
    return database(f"name attr perm {columns}".rstrip(), *entries)


class Case(NamedTuple):
    """A configuration and databases, and the statuses and outputs of AIDE and of the program."""

    name: str
    statuses: Pair[int]
    conf: str = BOTH
    old: str | bytes = A
    new: str = B
    words: tuple[str, ...] = ()
    texts: Pair[str] = ("", "")
    files: dict[str, str] = {}
    command: str = "-E"


def also(name: str, statuses: Pair[int], lines: str, texts: Pair[str] = ("", "")) -> Case:
    """A case of these lines after those that name both databases."""
    return Case(name, statuses, BOTH + lines + "\n", texts=texts)


def fields(
    name: str,
    statuses: Pair[int],
    column: Column,
    pair: Pair[str],
    lines: str = "",
    modes: Pair[str] = ("100644", "100644"),
    texts: Pair[str] = ("", ""),
) -> Case:
    """A case of one entry that has these two fields in a column."""
    old, new = (
        of_mode(column.name, entry(field, *column.bits, mode=mode))
        for field, mode in zip(pair, modes)
    )
    return Case(name, statuses, BOTH + lines, old, new, texts=texts)


def of_path(name: str, statuses: Pair[int], path: str) -> Case:
    """A case of a path of the old database, beside a file whose name has a blank."""
    conf = f"database_in=file:{path}\n{NEW_ONLY}"
    return Case(name, statuses, conf, files={"with blank": A})


IGNORED = "report_ignore_changed_attrs="
CONFIGURATION = [
    Case("the same answer", (4, 4)),
    Case("two database_in, the old one first", (4, 0), "database_in=file:OLD\n" + WRONG_OLD),
    Case("two database_new", (0, 4), "database_in=file:OLD\ndatabase_new=file:OLD\n" + NEW_ONLY),
    Case("-B against the file", (4, 0), WRONG_OLD, words=("-B", "database_in=file:OLD")),
    Case("-A against the file", (0, 4), WRONG_OLD, words=("-A", "database_in=file:OLD")),
    also("two assignments of an option", (4, 4), IGNORED + "s\n" + IGNORED + "p"),
    Case("no rule", (0, 4), PAIR + "database_attrs=E\n"),
    Case("a rule for another entry", (0, 4), PAIR + "database_attrs=E\n/a R\n"),
    also("a rule that takes an entry out", (0, 4), "!/b"),
    also("a rule with an unknown group", (17, 4), "/b nosuch"),
    also("a rule that is no expression", (17, 4), "/[ R"),
    also("the group > ignored", (0, 4), IGNORED + ">"),
    also("a report to a file", (4, 4), "report_url=file:DIR/report", texts=(r"\A\Z", "AIDE found")),
    also(
        "two reports", (4, 0), f"report_url=file:DIR/r\n{IGNORED}s\nreport_url=stdout", ("NO", "NO")
    ),
    also("options behind report_url=file", (4, 0), f"report_url=file:DIR/r\n{IGNORED}s"),
    also("options behind report_url=stdout", (4, 4), f"report_url=stdout\n{IGNORED}s"),
    also("a misspelt option", (17, 4), "report_ignore_changed_atrs=s"),
    also("a group in lower case", (17, 4), "mygroup=s"),
    of_path("a backslash before a blank", (4, 18), "DIR/with\\ blank"),
    of_path("a blank in a path", (17, 4), "DIR/with blank"),
    also("a comment behind a value", (4, 17), "report_level=summary # short"),
    also("a comment behind a bool", (4, 17), "report_quiet=no # yes"),
    also("a comment behind an expression", (17, 17), "report_force_attrs=s # x"),
    Case("a comment behind a path", (4, 18), PAIR.rstrip() + " # new\n" + RULES),
    also("a comment behind report_url", (4, 0), f"report_url=stdout # here\n{IGNORED}s"),
    Case("lines that end in CR LF", (4, 18), BOTH.replace("\n", "\r\n")),
    also("@@ifdef HOSTNAME", (4, 4), f"@@ifdef HOSTNAME\n{IGNORED}s\n@@endif"),
    also("a variable in an expression", (17, 0), f"@@define X s\n{IGNORED}@@{{X}}"),
    also("a blank in a variable's value", (17, 4), "@@define X a b"),
    also("nonsense in an unused part", (17, 4), "@@ifdef NOPE\nnonsense\n@@endif"),
    also("an empty block", (17, 4), "@@ifdef NOPE\n@@endif"),
    also("@@if defined", (0, 0), f"@@if not defined NOPE\n{IGNORED}s\n@@endif"),
    also("@@if exists", (0, 17), f"@@if exists /\n{IGNORED}s\n@@endif"),
    Case("a block over two texts", (17, 17), BOTH + "@@endif\n", words=("-B", "@@ifdef X")),
    also("report_format=json", (4, 17), "report_format=json"),
    also("a predefined group defined again", (0, 0), f"L=s\n{IGNORED}L"),
    also("L does not follow X", (4, 4), f"X=s\n{IGNORED}L"),
    also("a line uses the groups before it", (0, 0), f"Sz=s\n{IGNORED}Sz\nSz=p"),
    Case("a relative path", (4, 17), "database_in=file:old\n" + NEW_ONLY),
    Case("a path of a home folder", (18, 17), "database_in=file:~/nosuch.db\n" + NEW_ONLY),
]
for statuses, value, names in (
    ((4, 17), "no", ("grouped", "summarize_changes")),
    ((17, 17), "x", ("ignore_list", "report_attributes")),
    ((4, 17), "s", ("md5", "I")),
    ((17, 4), "no", ("verbose", "database_gzip", "syslog_format")),
):
    CONFIGURATION += [also(f"{name}={value}", statuses, f"{name}={value}") for name in names]

# Databases of one attribute that only one of them has.
WITHOUT = of_mode("sha256", entry("0"))
WITH = of_mode("sha256", entry(EMPTY, SHA256))
DIFFERENT = r"Entry /a in databases has different attributes: "
XATTR = ("0", "1,dXNlci54,MQ==")
REVERSED = ("2,dXNlci5vbmU=,MQ==,dXNlci50d28=,Mg==", "2,dXNlci50d28=,Mg==,dXNlci5vbmU=,MQ==")
FILE, ONE = entry(""), of_mode("", entry(""))
# Another file, with the bit of a rule that allows it to come, or to go.
MAY_COME, MAY_GO = entry("", ANF, path="/b"), entry("", ARF, path="/b")

ATTRIBUTES = [
    Case("only the new has it", (0, 4), BOTH, WITHOUT, WITH, texts=(DIFFERENT + r"\+sha256", "")),
    Case("only the old has it", (0, 4), BOTH, WITH, WITHOUT, texts=(DIFFERENT + "-sha256", "")),
    Case("the same, ignored", (0, 0), BOTH + "report_ignore_added_attrs=H\n", WITHOUT, WITH),
    fields(
        "a first extended attribute",
        (4, 4),
        XATTRS,
        XATTR,
        texts=(r"f   \.         X   : /a", r"f   \.         \+   : /a"),
    ),
    fields("a first one, ignored", (4, 0), XATTRS, XATTR, "report_ignore_added_attrs=X\n"),
    fields("a last one, ignored", (4, 0), XATTRS, XATTR[::-1], "report_ignore_removed_attrs=X\n"),
    fields(
        "a first flag of the file system",
        (4, 4),
        FLAGS,
        ("0", "64"),
        texts=(r"f   \.           E : /a", r"f   \.           \+ : /a"),
    ),
    fields(
        "flags of the file system that report_ignore_e2fsattrs names",
        (0, 4),
        FLAGS,
        ("524288", "528384"),
        lines="report_ignore_e2fsattrs=VNIE\n",
        texts=("", r"f   \.           E : /a"),
    ),
    fields(
        "extended attributes in another order",
        (0, 4),
        XATTRS,
        REVERSED,
        texts=("", r"f   \.         X   : /a"),
    ),
    fields(
        "two empty values",
        (4, 4),
        XATTRS,
        ("0", "0"),
        modes=CHMOD,
        texts=(r"f   p         \.   : /a", r"f   p             : /a"),
    ),
    Case(
        "a digest without its bit",
        (0, 4),
        BOTH,
        database("name attr sha256", "/a 0 " + EMPTY),
        database("name attr sha256", "/a 0 " + OTHER),
    ),
    Case(
        "another type, no bit of the type",
        (4, 4),
        BOTH,
        database("name attr perm", "/a 4 100644"),
        database("name attr perm", "/a 4 120644"),
        texts=(r"l   p             : /a", r"!   \.             : /a"),
    ),
    Case(
        "another type, ignored",
        (4, 0),
        BOTH + IGNORED + "ftype\n",
        ONE,
        of_mode("", entry("", mode="120644")),
        texts=(r"l   p             : /a", ""),
    ),
    fields("a log that shrank, without s", (4, 0), GROWS, ("2", "1")),
    fields("a log that has grown", (0, 4), LOG, ("1", "2")),
    fields(
        "a log that has grown, with a digest",
        (4, 4),
        LOG_AND_DIGEST,
        ("1 " + EMPTY, "2 " + OTHER),
        texts=(r"f = \.       H     : /a", r"f > \.       H     : /a"),
    ),
    Case("a new file that is allowed", (0, 1), BOTH, ONE, of_mode("", FILE, MAY_COME)),
    Case("a removed file that is allowed", (0, 2), BOTH, of_mode("", FILE, MAY_GO), ONE),
    Case(
        "a file that was moved",
        (0, 3),
        BOTH,
        of_mode("inode", entry("7", 9, I_BIT, path="/d/a")),
        of_mode("inode", entry("7", 9, I_BIT, path="/d/b")),
    ),
]


def of_two_digests(first: str) -> str:
    """A database of an entry that has two digests, which begin with this letter."""
    gost, whirlpool = first + "A" * 42 + "=", first + "A" * 85 + "=="
    return database("name attr gost whirlpool", f"/a {1 << 18 | 1 << 34} {gost} {whirlpool}")


REPORTS = [
    fields(
        "an ignored attribute that did not change",
        (4, 4),
        MTIME,
        ("5", "5"),
        modes=CHMOD,
        lines=IGNORED + "m\n",
        texts=(r"f   p   :         : /a", r"f   p   \.         : /a"),
    ),
    fields(
        "a file that shrank, removed sizes ignored",
        (4, 4),
        SIZE,
        ("9", "5"),
        lines="report_ignore_removed_attrs=s\n",
        texts=(r"f > \.             : /a", r"f < \.             : /a"),
    ),
    fields(
        "a forced attribute that is ignored",
        (4, 4),
        SIZE,
        ("1", "2"),
        modes=CHMOD,
        lines=IGNORED + "s\nreport_force_attrs=s\n",
        texts=(r"f > p             : /a", r"f : p             : /a"),
    ),
    Case(
        "the order of two digests",
        (4, 4),
        BOTH,
        of_two_digests("A"),
        of_two_digests("B"),
        texts=(r"(?s)WHIRLPOOL.*GOST", r"(?s)GOST.*WHIRLPOOL"),
    ),
    Case(
        "the digests of the databases", (4, 4), texts=(r"(?s)\A(?!.*SHA256)", r"\n  SHA256    : ")
    ),
]
# Those of an entry that is added, and of one that is removed: an ignored attribute is left out.
for status, word, sizes in ((1, "added", ("", "5")), (2, "removed", ("5", ""))):
    old, new = (of_mode("size", *[entry(each, 5)] * bool(each)) for each in sizes)
    lines = f"report_level=added_removed_entries\nreport_ignore_{word}_attrs=s\n"
    texts = (r"(?s)\A(?!.*Size)", r"\n  Size      : ")
    REPORTS.append(Case(f"details, {word}", (status, status), BOTH + lines, old, new, texts=texts))
for path, texts in (
    ("/x%5Cy", (r": /x\\y\n", r": /x\\134y\n")),
    ("/x%5C123", (r": /x\\134123\n", r": /x\\134123\n")),
):
    REPORTS.append(Case(path, (1, 1), BOTH, plain(), plain(f"{path} 32 1"), texts=texts))

DATABASES = [
    Case("a database with CR LF", (2, 24), new=A.replace("\n", "\r\n")),
    Case(
        "no column attr", (4, 4), BOTH, database("name size", "/a 1"), database("name size", "/a 2")
    ),
    Case("another order", (0, 24), new=plain("/b 32 2", "/a 32 1")),
    Case("a path twice", (0, 24), new=plain("/a 32 1", "/a 32 5", "/b 32 2")),
    Case("a line that is cut", (2, 24), new=plain("/a 32 1", "/b 32")),
    Case("a field too many", (0, 24), new=plain("/a 32 1", "/b 32 2 7")),
    Case("a number that is none", (4, 24), new=plain("/a 32 1", "/b 32 x")),
    Case("no @@end_db", (0, 24), new=A.replace("@@end_db\n", "")),
    Case("no @@begin_db", (2, 24), new=A.replace("@@begin_db\n", "")),
    Case("an empty database", (2, 24), new=""),
    Case("a compressed database", (4, 24), old=gzip.compress(A.encode())),
    Case("an unknown column", (0, 0), new=database("name attr size foo", "/a 32 1 9", "/b 32 2 9")),
    Case("behind @@end_db", (0, 0), new=A + "/c 32 5\n"),
    Case("a line that begins with #", (2, 2), new=plain("/a 32 1", "# /b 32 2")),
]

NOWHERE = "database_in=file:/nosuch.db\n"
TWICE = ("-A", "report_level=minimal", "-A", "report_quiet=no")
WORDS = [
    Case("no database", (15, 17), RULES),
    Case("-D without databases", (0, 0), RULES, command="-D"),
    Case("-D and a database that is not there", (0, 0), NOWHERE, command="-D"),
    Case("a database that is not there", (18, 18), NOWHERE + NEW_ONLY),
    Case("--limit", (0, 15), words=("--limit", "/a")),
    Case("an option twice", (4, 15), words=TWICE),
    Case("an option cut short", (4, 15), command="--compar"),
    Case("-E and -D", (15, 15), words=("-D",)),
    Case("a further word", (15, 15), words=("extra",)),
]
CASES = [*CONFIGURATION, *ATTRIBUTES, *REPORTS, *DATABASES, *WORDS]
