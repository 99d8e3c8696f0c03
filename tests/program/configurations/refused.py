"""Configurations that are refused: the line and the words of the first fault, and the text."""

# Blocks that are not closed, closed twice or divided twice, and the lines in them.
BLOCKS = [
    (1, "@@else without a block", b"@@else"),
    (3, "@@else without a block", b"@@ifdef A\n@@else\n@@else\n@@endif"),
    (1, "@@endif without a block", b"@@endif"),
    (2, "missing @@endif", b"@@ifdef A"),
    (4, "missing @@endif", b"@@ifdef A\n@@if so\n@@endif"),
    (3, "missing @@endif", b"@@ifdef A\n#@@endif"),
    (4, "missing @@endif", b"@@ifdef A\n@@ifdef\n@@endif"),
    (2, "unknown directive", b"@@ifdef A\n@@iffoo"),
    (3, "left out of this profile", b"@@ifdef A\n@@else\n@@include /x"),
]

# Directives that are malformed, unknown or left out.
DIRECTIVES = [
    (1, "unknown directive", b"@@"),
    (1, "unknown directive", b"@@ define A b"),
    (1, "unknown directive", b"@@nope"),
    (1, "unknown directive", b"@@de@@{A}fine A b"),
    (1, "unknown directive", b"@@if version_ge 1"),
    (1, "unknown directive", b"@@if\rdefined A"),
    (1, "bad name", b"@@if defined A B"),
    (1, "unknown directive", b"@@elsewhere"),
    (1, "unknown directive", b"@@Define A b"),
    (1, "left out of this profile", b"@@include /x"),
    (1, "bad name", b"@@define"),
    (1, "bad name", b"@@define @@{A} x"),
    (1, "bad name", b"@@undef A B"),
    (1, "bad name", b"@@ifndef A # is not there"),
]

# Lines that are refused because of what they expand to.
EXPANDED = [
    (3, "bad name", b"@@define A @@{B\n@@define B x\n@@{A}}=p"),
    (1, "line not understood", b"@@{X}@@define A b"),
    (1, "line not understood", b"@@{X}@@include /x"),
    (2, "line not understood", b"@@define E @@else\n@@{E}"),
    (3, "bad name", b"@@define N\n@@define S @@{N} @@{N}\nreport@@{S}_level=minimal"),
    (2, "bad value", b"@@define S @@{N}\t@@{N}\nreport_level=min@@{S}imal"),
    (2, "bad expression", b"@@{NOPE}=p\nmy=p+@@{NOPE}"),
    (2, "bad value", b"@@define A yes\nreport_quiet=@@{A} }"),
]

# Names and values that are refused, and options that are left out.
VALUES = [
    (1, "left out of this profile", b"ignore_list = p"),
    (1, "left out of this profile", b"grouped=no"),
    (1, "left out of this profile", b"report_format=json"),
    (1, "left out of this profile", b"database_in=stdin"),
    (1, "left out of this profile", b"database_new=http://host/old"),
    (1, "bad name", b"p = s"),
    (1, "bad name", b"S = s"),
    (1, "bad name", b"a-b = s"),
    (1, "unknown attribute", b"report_force_attrs=p+nope"),
    (1, "bad expression", b"my ="),
    (1, "bad expression", b"my = p q"),
    (1, "bad expression", b"report_force_attrs=p+"),
    (1, "bad value", b"report_force_attrs="),
    (1, "bad value", b"report_quiet=YES"),
    (1, "bad value", b"report_level=loud"),
    (1, "bad value", b"report_format=xml"),
    (1, "bad database URL", b"database_in=old"),
    (1, "bad database URL", b"database_in=file:old"),
    (1, "bad database URL", b"database_in=file://host/old"),
    (1, "bad database URL", b"database_in=file:/\xff"),
    (1, "bad database URL", b"database_in=stdin:"),
    (1, "line not understood", b"hello"),
    (2, "bad value", b"report_url=stdout\nreport_level=loud"),
    (2, "left out of this profile", b"@@define U stdin\ndatabase_in=@@{U}"),
]

# Three texts (before the file, the file, after it) that are checked, and what is said of them.
CHECKED_TEXTS = [
    ("config:2: missing @@endif", b"", b"@@ifdef A", b"@@endif"),
    ("before:2: missing @@endif", b"@@ifdef A", b"hello", b""),
    ("config:1: @@endif without a block", b"@@ifdef A\n@@endif", b"@@endif", b""),
    ("after:1: @@else without a block", b"@@define A", b"@@ifdef A\n@@endif", b"@@else"),
    ("config:4: line not understood", b"my=p", b"\n# a\n \t\nhello\np=s", b"p=s"),
    ("config:1: unknown attribute", b"", b"your=my", b"my=p"),
]

# Three texts that are read for a comparison, which needs two databases.
COMPARED_TEXTS = [
    ("after:2: missing @@endif", b"", b"", b"@@ifdef A"),
    ("after:3: no old database", b"", b"", b"@@ifdef A\n@@endif\n"),
    (
        "after:1: no new database",
        b"",
        b"database_in=file:/old\n@@ifdef A\ndatabase_new=file:/new\n@@endif",
        b"",
    ),
    ("after:3: no new database", b"", b"database_in=file:/old", b"# a\n# b"),
    ("after:1: line not understood", b"", b"", b"hello"),
]

# The configurations of one text.
ALL = BLOCKS + DIRECTIVES + EXPANDED + VALUES
# Those of one line that an argument may have too.
LINES = [text for _, _, text in ALL if b"\n" not in text and b"\0" not in text]
