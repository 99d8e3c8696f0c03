"""Random configurations and command lines over three texts: before, the file and after."""
from __future__ import annotations

import random

from tests.oracle.attributes import EMPTY_NAMES, GROUPS, NAMES
from tests.oracle.configuration import BOOL_OPTIONS, LEVELS, SET_OPTIONS, WITHOUT_EFFECT
from tests.program.configurations import refused

VARIABLES = [b"A", b"B", b"LEVEL", b"V_1", b"x" * 64]
OWN_GROUPS = [b"mine", b"times", b">", b"L", b"E", b"g1"]
# Values of variables, lines that choose files or say nothing, and lines with variables.
VALUES = b"minimal||summary|@@{A}|x @@{B} y|p+s|@@{NOPE}|yes|@@{A".split(b"|")
WITHOUT_EFFECT_ON_REPORTS = (
    b"|# comment|/etc R|!/tmp|=/x p|-x| \t|@@{NOPE}|@@{NOPE}# x|/@@{A}".split(b"|")
)
EXPANDED = [
    b"@@{NOPE}report_grouped=no",
    b"report_level = @@{NOPE}summary",
    b"report_force_attrs = s@@{NOPE}+p",
]
OF_VARIABLES = [
    b"report_level=@@{LEVEL}",
    b"report_quiet=@@{A}",
    b"@@{B}report_grouped=no",
    b"report_force_attrs=@@{V_1}+s",
]
DEEP = b"@@ifdef A|@@ifndef A|@@if defined A|@@if not defined NOPE".split(b"|")
OPENINGS = b"@@ifdef |@@ifndef |@@if defined |@@if not defined |@@if\tnot  defined\t".split(b"|")
# Words that are not understood behind a good command line; `PATH` stands for its configuration.
BAD_WORDS = (
    "-E|-D|extra|--help|-V|--limit x|-B||--|-B -x|-c PATH|--conf PATH|-A -|-A=|--compare=x|\xff"
).split("|")
BAD_LINES = refused.LINES + [
    b"@@define " + b"x" * 65 + b" 1",
    b"@@define A " + b"y" * 4097,
    b"database_in=file:/" + b"p" * 4096,
    b"/" + b"x" * 65536,
    b"@@{A",
]


def random_expression(pick: random.Random) -> bytes:
    names = NAMES + list(GROUPS) + EMPTY_NAMES + (["mine", "times"] if pick.random() < 0.05 else [])
    text = pick.choice(names)
    for _ in range(pick.choice([0, 0, 1, 2, 5])):
        text += pick.choice(["+", "+", "-", " + ", "\t-"]) + pick.choice(names)
    return text.encode()


def random_option(pick: random.Random) -> tuple[bytes, bytes]:
    name = pick.choice(
        ["report_level", "report_level"] + BOOL_OPTIONS + SET_OPTIONS + SET_OPTIONS + ["other"]
    )
    if name == "report_level":
        return b"report_level", pick.choice(LEVELS + LEVELS[4:]).encode()
    if name in BOOL_OPTIONS:
        return name.encode(), pick.choice([b"yes", b"no", b"true", b"false"])
    if name in SET_OPTIONS:
        return name.encode(), random_expression(pick)
    others = [(b"report_format", b"plain"), (b"report_url", b"stdout")]
    others.append((b"report_url", b"syslog:LOG_AUTH"))
    others.append((pick.choice(WITHOUT_EFFECT).encode(), b"anything = at all"))
    return pick.choice(others)


def random_line(pick: random.Random) -> bytes:
    way = pick.random()
    if way < 0.5:
        return pick.choice([b"=", b" = ", b"\t= "]).join(random_option(pick))
    if way < 0.6:
        return pick.choice(OWN_GROUPS) + b" = " + random_expression(pick)
    if way < 0.65:
        return b"@@define LEVEL " + pick.choice(LEVELS).encode()
    if way < 0.75:
        value = pick.choice(VALUES)
        return b"@@define " + pick.choice(VARIABLES) + b" " + value
    if way < 0.8:
        return b"@@undef " + pick.choice(VARIABLES)
    if way < 0.9:
        return pick.choice(WITHOUT_EFFECT_ON_REPORTS)
    return pick.choice(EXPANDED if way < 0.99 else OF_VARIABLES)


def random_block(pick: random.Random, depth: int = 0) -> list[bytes]:
    lines = []
    for _ in range(pick.choice([0, 1, 2, 4])):
        if pick.random() < 0.25 and depth < 4:
            lines.append(pick.choice(OPENINGS) + pick.choice(VARIABLES + [b"NOPE"]))
            lines += random_block(pick, depth + 1)
            if pick.random() < 0.5:
                lines += [pick.choice([b"@@else", b" @@else x"])] + random_block(pick, depth + 1)
            lines.append(pick.choice([b"@@endif", b"\t@@endif x y "]))
        else:
            lines.append(random_line(pick))
    return lines


def random_text(pick: random.Random, bad: float) -> bytes:
    lines = random_block(pick)
    if pick.random() < bad:
        lines.insert(pick.randint(0, len(lines)), pick.choice(BAD_LINES))
    if pick.random() < bad / 8:
        opening = pick.choice(DEEP)
        depth = pick.choice([32, 33])
        lines = [opening] * depth + lines + [b"@@endif"] * depth
    return b"\n".join(lines) + pick.choice([b"\n", b"\n", b""])


def random_configuration(pick: random.Random, folder: bytes, bad: float) -> bytes:
    """The text of a configuration file that names two databases of a folder."""
    named = [b"database_in=file:" + folder + b"/old", b"database_new = file://" + folder + b"/new"]
    if pick.random() < 0.1:
        named = [
            b"@@define DIR " + folder,
            b"database=file:@@{DIR}/old",
            b"database_new=file:@@{DIR}/./new",
        ]
    if pick.random() < 0.03:
        del named[pick.randrange(len(named))]
    text = random_text(pick, bad)
    names = b"\n".join(named) + b"\n"
    return names + text if pick.random() < 0.7 else text + b"\n" + names


def random_words(pick: random.Random, path: bytes, bad: float) -> list[bytes]:
    """A command line that reads the configuration at a path."""
    compares = pick.random() < 0.93
    flag = pick.choice([[b"-E"], [b"--compare"]] if compares else [[b"-D"], [b"--config-check"]])
    config = pick.choice(
        [[b"-c", path], [b"-c" + path], [b"--config", path], [b"--config=" + path], [b"-c=" + path]]
    )
    parts = [flag, config]
    for short, long in ((b"-B", b"--before"), (b"-A", b"--after")):
        if pick.random() < 0.4:
            text = random_text(pick, bad / 4)
            ways = [[short, text], [long, text], [short + text]]
            ways += [[short + b"=" + text], [long + b"=" + text]]
            parts.append(pick.choice(ways))
    if pick.random() < bad / 4:
        words = pick.choice(BAD_WORDS).encode("latin-1").split(b" ")
        parts.append([path if word == b"PATH" else word for word in words])
    pick.shuffle(parts)
    is_short = len(flag[0]) == 2 and config[0].startswith(b"-c")
    if is_short and parts[:2] == [flag, config] and pick.random() < 0.3:
        parts[:2] = [[flag[0] + config[0][1:]] + config[1:]]
    return [word for part in parts for word in part]
