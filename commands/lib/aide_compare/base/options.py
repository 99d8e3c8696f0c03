"""The table of options. But for --format and --max-age an option is one row, whatever commands have
it: rows that several commands have, or that may stand in the administrator's file of defaults, are
here, all others in the module of their command. What a command line asks for is a class whose
fields are rows: base/parser.py makes the parser and the help, packaging/completions completions.
"""
from __future__ import annotations

from collections.abc import Callable, Mapping, Sequence
from typing import Any, NamedTuple

from aide_compare.base.kinds import (
    address,
    alarm_limit,
    digest_digits,
    duration,
    file_path,
    pattern,
    size,
    some_text,
    some_time,
    text_in_utf8,
)

DAYS = ("Mon", "Tue", "Wed", "Thu", "Fri", "Sat", "Sun")


class Option(NamedTuple):
    """An option of a command line. One that has neither a `metavar` nor `choices` has no value."""

    name: str  # Such as "--config".
    help: str
    metavar: str = ""
    kind: Callable[[str], object] = some_text
    default: object = None
    choices: Sequence[str] = ()
    letter: str = ""  # Such as "-c".
    is_repeated: bool = False  # Its value is the list of all that were given.
    is_single: bool = False  # It may be given once only.
    number_of_values: int = 1  # With more, `metavar` has a word for each.

    @property
    def has_value(self) -> bool:
        return bool(self.metavar or self.choices)

    @property
    def usual(self) -> object:
        """Its value if nobody gives it."""
        if self.has_value:
            return self.default
        return False

    @property
    def attribute(self) -> str:
        """Its name once it is parsed."""
        return self.name.removeprefix("--").replace("-", "_")


class Operand(NamedTuple):
    """What a command line has beside its options. With `nargs` as argparse has it there may be none
    or several."""

    metavar: str
    help: str
    nargs: str | None = None
    default: object = None
    kind: Callable[[str], object] = some_text


def field(row: Option | Operand, **changes: Any) -> Any:
    """A field of a request: its value is what the command line says for a row, with these
    changes."""
    return row._replace(**changes)


def option(name: str, help: str, metavar: str = "", **more: Any) -> Any:
    """A field with an option that no other class has."""
    return Option(name, help, metavar, **more)


QUIET = Option("--quiet", "print less, if there is less to print", letter="-q")
VERBOSE = Option(
    "--verbose", "print also how many changes each line of a list leaves out", letter="-v"
)


class Request:
    """What a command line asks for. The rows of a subclass are its options and operands, and its
    instances have a value of each, and nothing else."""

    def __init__(self, values: Mapping[str, object]) -> None:
        unlike = values.keys() ^ self.rows().keys()
        if unlike:
            raise TypeError(f"not as the rows of {type(self).__name__}: {sorted(unlike)}")
        vars(self).update(values)

    @classmethod
    def rows(cls) -> dict[str, Option | Operand]:
        """The rows by the names of their fields, those of its parents first."""
        rows: dict[str, Option | Operand] = {}
        for each in reversed(cls.__mro__):
            for name, row in vars(each).items():
                if isinstance(row, (Option, Operand)):
                    rows[name] = row
        return rows


CONFIG = Option(
    "--config",
    "a configuration, as in aide-compare.conf(5), with OLD and NEW (none)",
    "CONF",
    letter="-c",
)
# In the file of defaults only, for a command line that names none.
DATABASES = Option("--databases", "", "OLD NEW", kind=file_path, number_of_values=2)
AFTER = Option(
    "--after",
    "lines to read after the configuration, such as report_level=summary",
    "TEXT",
    kind=text_in_utf8,
    letter="-A",
    is_single=True,
)
STATE = Option(
    "--state",
    "the state file, with the result of a comparison",
    "FILE",
    kind=file_path,
)
# The most bytes of a database unpacked, unless an option says another number, and of a report.
MAX_DATABASE_BYTES = 1 << 40
MAX_REPORT_BYTES = 1 << 30
MAX_RESULT_AGE = 26 * 3600
MAX_SIZE = Option(
    "--max-size",
    "refuse a database of more bytes unpacked (1024G)",
    "SIZE",
    kind=size,
    default=MAX_DATABASE_BYTES,
)
# Of databases; a result has an age too, with an option of the same name.
MAX_AGE = Option(
    "--max-age",
    "refuse a new database that is older than TIME, or from the future (0: no limit)",
    "TIME",
    kind=duration,
    default=0,
)
RESULT_AGE = Option(
    "--max-age",
    "an older result counts as no comparison (26h; 0: no limit)",
    "TIME",
    kind=duration,
    default=MAX_RESULT_AGE,
)
EXCLUDE_FROM = Option(
    "--exclude-from",
    "leave out the changes at the paths that FILE names, such as the example debian.without",
    "FILE",
    is_repeated=True,
)
EXCLUDE = Option(
    "--exclude",
    "leave out the changes at this path or pattern",
    "PATTERN",
    is_repeated=True,
)
TRUSTED = Option(
    "--trusted",
    "keep quiet about changes that a trusted machine went through too: its old and its new"
    " database, whose changes you have read, or what aide-compare archive made",
    "OLD NEW",
    is_single=True,
    number_of_values=2,
)
KEEP_OPEN = Option(
    "--keep-open",
    "accept all except the changes of these paths, such as '/etc/**'",
    "PATTERN",
    kind=pattern,
    is_repeated=True,
)
SHA256 = Option(
    "--sha256",
    "the SHA-256 in the report or mail that was read, or its first 16 digits or more",
    "DIGEST",
    kind=digest_digits,
)
TO = Option("--to", "where the mail goes", "ADDRESS", kind=address)
MAIL_TIME = Option(
    "--mail-time",
    "how long sending may take (60s)",
    "TIME",
    kind=some_time,
    default=60,
)
ATTACH_PAGE = Option("--attach-page", "attach the page to the text")
WEEKLY = Option(
    "--weekly",
    "with --state: send a heartbeat on a day of the week, such as Mon",
    "DAY",
    choices=DAYS,
)
WARNING = Option(
    "--warning",
    "of nagios: WARNING from this limit on",
    "LIMIT",
    kind=alarm_limit,
)
CRITICAL = Option(
    "--critical",
    "of nagios: CRITICAL from this limit on",
    "LIMIT",
    kind=alarm_limit,
)
USER = Option("--user", "drop privileges to this user first", "NAME")
# Where the databases of many hosts are kept, and how long a host may take.
STORE = "/var/lib/aide-compare"
HOST_TIME = Option(
    "--time",
    "the most time for a host (10m)",
    "TIME",
    kind=duration,
    default=600,
)
HOSTS_FILE = "/etc/aide-compare/hosts"
HOSTS_OPERAND = Operand(
    "HOSTS-FILE",
    f"a name a line; - is standard input; or the name of one host ({HOSTS_FILE})",
    "?",
    HOSTS_FILE,
)
HOSTS_OPTION = Option(
    "--hosts-file",
    f"the file that gets the name of a host, or loses it ({HOSTS_FILE})",
    "FILE",
    default=HOSTS_FILE,
)


class StoreRequest(Request):
    """What all commands over hosts are asked for."""

    store: str = option("--store", f"where the databases are kept ({STORE})", "DIR", default=STORE)
    seconds: int = field(HOST_TIME)


NO_DEFAULTS = Option("--no-defaults", "do not read the defaults in /etc/aide-compare")

# The options of a comparison that may stand in the file of defaults, those of them that are for the
# databases of this machine only, those of a mail, and those of a check.
COMPARISON_DEFAULTS = (DATABASES, MAX_SIZE, MAX_AGE, EXCLUDE_FROM, EXCLUDE, TRUSTED, STATE)
MACHINES_DEFAULTS = (DATABASES, TRUSTED, STATE)
MAIL_DEFAULTS = (TO, MAIL_TIME, ATTACH_PAGE, WEEKLY)
CHECK_DEFAULTS = (WARNING, CRITICAL, STATE)
