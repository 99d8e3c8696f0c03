"""Configurations of the greatest depth, length and number of names, and beyond: a fault or none."""

# `A12` has 4,096 times x.
DOUBLED = b"@@define A0 x\n" + b"".join(
    b"@@define A%d @@{A%d}@@{A%d}\n" % (number, number - 1, number - 1) for number in range(1, 13)
)
VARIABLES = b"".join(b"@@define v%04d x\n" % number for number in range(1024))
GROUPS = b"".join(b"v%04d = p+s\n" % number for number in range(1024))

# The line and the words of the fault, and the text.
REFUSED = [
    (33, "blocks nested too deep", b"@@ifdef A\n" * 32 + b"@@ifdef A"),
    (33, "blocks nested too deep", b"@@ifdef A\n" * 32 + b"@@ifdef"),
    (35, "blocks nested too deep", b"@@ifdef A\n" * 32 + b"@@endif\n@@ifdef A\n@@ifdef A"),
    (33, "missing @@endif", b"@@ifdef A\n" * 32),
    (1, "value too long", b"@@define A " + b"x" * 4097),
    (1, "bad name", b"@@define " + b"x" * 65 + b" x"),
    (1, "value too long", b"database_in=file:/" + b"x" * 4096),
    (1, "line too long", b"@@{" + b"x" * 65533 + b"}"),
    (1, "line too long", b"@@{NOPE}#" + b"x" * 65528),
    (1, "line too long", b"@@define A " + b"x" * 65526),
    (2, "line too long", b"@@ifndef A\n@@endif " + b"x" * 65529 + b"\n"),
    (14, "value too long", DOUBLED + b"@@define A13 " + b"@@{A12}" * 2),
    (14, "line too long", DOUBLED + b"/" + b"@@{A12}" * 15 + b"x" * 4096),
    (14, "value too long", DOUBLED + b"database_in=file:/" + b"@@{A12}"),
    (1025, "too many definitions", VARIABLES + b"@@define NEW x"),
    (1027, "too many definitions", VARIABLES + b"@@undef v0007\n@@define v0007 x\n@@define NEW x"),
    (1025, "too many definitions", GROUPS + b"NEW = p"),
    (
        1028,
        "too many definitions",
        VARIABLES + b"@@undef v0007\n@@define NEW x\n@@define v0001\n@@define MORE",
    ),
]

ACCEPTED = [
    b"@@ifdef A\n" * 32 + b"@@endif\n" * 32,
    b"@@define A " + b"x" * 4096 + b" ",
    b"@@define " + b"x" * 64 + b" x",
    b"database_in=file:/" + b"x" * 4095,
    b"@@{" + b"x" * 65532 + b"}",
    b"/" + b"x" * 65535,
    b"# " + b"x" * 70000,
    b"@@ifdef A\n@@ifdef B C\n@@include /x\n" + b"x" * 70000 + b"\n@@endif\n@@endif",
    b"@@ifndef A\n@@endif " + b"x" * 65528 + b"\n",
    DOUBLED + b"/" + b"@@{A12}" * 15 + b"x" * 4095,
    VARIABLES,
    GROUPS,
]

# Without a fault too, and so long that the definitions, which look back, would take hours.
WHOLE = [b"report_quiet=yes\n" * 246723, b"\n" * 4194304]
