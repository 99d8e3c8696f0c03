"""Configurations and groups that are refused memory, what no report shows of them, and changes of
attributes that no entry has."""
from __future__ import annotations

from tests.oracle.attributes import NAMES
from tests.oracle.configuration import Fault, read
from tests.oracle.lines import settings_line
from tests.planned.driver import PlannedTest, Printed
from tests.planned.plans import (
    Change,
    Configuration,
    Groups,
    defined,
    evaluated,
    looked_up,
)

MANY = 1000
# A text and a line of it.
Place = tuple[int, int]
TEXTS = ["before", "config", "after"]
DEFINITIONS = Configuration(
    b"database_in=file:/old\nmy = p+s\nreport_force_attrs = my-s\nyour = my+u\nmy = s\n"
    b"database_new=file:/new\ndatabase=file:/older\n",
    b"first = p\n",
    b"last = first+my\nreport_ignore_added_attrs=last\n",
    is_compared=True,
)
BLOCKS = Configuration(
    b"@@ifdef DIR\ndatabase_in=file:@@{DIR}/old\n@@else\nnonsense\n@@endif\n"
    b"@@define DIR @@{DIR}/aide@@{EMPTY}\n@@ifndef NOPE\n@@ifdef NOPE\n@@define NOPE x\n@@else\n"
    b"@@{EMPTY}my = p+s\n@@endif\n@@undef EMPTY\n@@endif\n@@{EMPTY}report_force_attrs = my-s\n",
    b"@@define DIR /var/lib\n@@define EMPTY\n",
    b"database_new=file:@@{DIR}/new\nreport_quiet=yes@@{EMPTY}\n",
    is_compared=True,
)
# The places at which memory is always needed: new variables, groups and paths.
GROWING: dict[Configuration, list[Place]] = {
    DEFINITIONS: [(0, 1), (1, 1), (1, 2), (1, 4), (1, 6), (1, 7), (2, 1)],
    BLOCKS: [(0, 1), (1, 2), (1, 11), (2, 1)],
}
PLAIN = [
    Configuration(b""),
    Configuration(b"database_in=file:/old"),
    Configuration(b"database_in=file:/old", is_compared=True),
    Configuration(
        b'database_in=file:/o%20"\ndatabase_new=file:/n\nreport_level=minimal\nreport_grouped=no\n'
        b"report_summarize_changes=no\nreport_base16=yes\nreport_quiet=yes\n"
        b"report_ignore_added_attrs=p+s\nreport_ignore_removed_attrs=sha512_256\n"
        b"report_ignore_changed_attrs=ftype+caps\nreport_force_attrs=l\n"
    ),
]
# Expressions that are refused, with the kind of the fault, its code, and the index of the byte.
FAULTY = [
    (b"p q", "BadExpression", 2, 2),
    (b"p+", "BadExpression", 2, 2),
    (b"p+ ", "BadExpression", 2, 3),
    (b"", "BadExpression", 2, 0),
    (b"+p", "BadExpression", 2, 0),
    (b"-p", "BadExpression", 2, 0),
    (b"p+-s", "BadExpression", 2, 2),
    (b"p\r", "BadExpression", 2, 1),
    (b"nope", "UnknownName", 1, 0),
    (b"p+nope", "UnknownName", 1, 2),
    (b"p+nope+*", "UnknownName", 1, 2),
    (b"p*nope", "BadExpression", 2, 1),
    (b"p nope", "BadExpression", 2, 2),
    (b"nope p", "UnknownName", 1, 0),
]
# The attributes of two entries of a change, and what is reported of it, shown of it, and the first
# letters of its summary.
HELD = b"s+p+ftype"
CHANGES: list[tuple[Change, list[str], list[str], bytes]] = [
    (Change(HELD, HELD, b"s+md5", b"s+p", b"s+p"), ["s"], ["s"], b"f > ."),
    (Change(HELD, HELD, b"s"), ["s"], ["s"], b"f > ."),
    (Change(HELD, HELD, b"s", changed_ignored=b"s"), [], [], b"f : ."),
    (Change(HELD, HELD, b"s", changed_ignored=b"s", forced=b"s"), [], [], b"f : ."),
    (Change(HELD, HELD, b"s+p", changed_ignored=b"s", forced=b"s"), ["p"], ["s", "p"], b"f : p"),
]
EXPRESSIONS = (b"s", b"p", b"s+p")
# Definitions of some names in turn, each of which is made twice.
GROUPS, DEFINED = 20, 50
DEFINITIONS_MADE = [number for number in range(DEFINED) for _ in range(2)]


def name_of(number: int) -> bytes:
    return b"g%04d" % (number % GROUPS)


def set_line(*names: str, label: str = "set") -> tuple[str, str]:
    """How a set is printed."""
    return label, " ".join(str(NAMES.index(name)) for name in NAMES if name in names)


def settings_of(plan: Configuration) -> Printed:
    """What is printed of a configuration without a refusal."""
    settings = read(plan.before, plan.file, plan.after, plan.is_compared)
    if isinstance(settings, Fault):
        return []
    paths = [settings[name] for name in ("database_in", "database_new")]
    task = "none" if None in paths else " ".join(path.decode() for path in paths)
    return [("settings", settings_line(settings).hex()), ("task", task)]


class SettingsTest(PlannedTest):
    def test_settings(self) -> None:
        for plan in PLAIN:
            printed = self.driver.one(plan)
            if plan.is_compared:
                fault = ("fault", "NoNewDatabase 17 after:1: no new database")
                self.holds(f"{plan}", printed == [fault, ("refused", "false"), fault], printed)
            else:
                self.holds(f"{plan}", printed[:2] == settings_of(plan), printed)

    def test_growths(self) -> None:
        """The places of refusals never go back, and then the same texts are read in full."""
        for plan, growing in GROWING.items():
            places: list[Place] = []
            for refused in range(MANY):
                printed = self.driver.one(plan._replace(refused=refused))
                if dict(printed)["refused"] == "false":
                    self.holds("without a refusal", printed[:2] == settings_of(plan), printed)
                    break
                told, line, words = printed[0][1].split(":")
                *kind, text = told.split()
                places.append((TEXTS.index(text), int(line)))
                is_memory = (kind, words) == (["Memory", "18"], " out of memory")
                self.holds(f"growth {refused}", is_memory, printed)
                self.holds(f"after {refused}", printed[2:] == settings_of(plan), printed)
            self.holds("in order", places == sorted(places), places)
            self.holds("growths", set(growing) <= set(places), places)


class GroupsTest(PlannedTest):
    def test_growths(self) -> None:
        """Each allocation is refused in turn. A definition that is refused changes no group, and
        succeeds when it is made again."""
        looks = [looked_up(name_of(number)) for number in range(GROUPS)]
        calls: list[tuple[object, ...]] = []
        for number in DEFINITIONS_MADE:
            calls += [defined(name_of(number), EXPRESSIONS[number % 3]), *looks]
        refused = 0
        for refused in range(MANY):
            printed = self.driver.one(Groups(calls, refused))
            self.compare(f"growth {refused}", self.faults_of(printed))
            if printed[-1] == ("refused", "false"):
                break
        self.holds("growths", DEFINED < refused < MANY - 1, refused)

    def faults_of(self, printed: Printed) -> list[str]:
        """What is not as wanted of the definitions, each of which is made twice."""
        found, refusals = [], 0
        known = {number: ("none", "") for number in range(GROUPS)}
        for index, number in enumerate(DEFINITIONS_MADE):
            answer, *seen = printed[index * (GROUPS + 1) : (index + 1) * (GROUPS + 1)]
            if answer == ("fault", "Memory 3"):
                refusals += 1
            elif answer == ("defined", ""):
                known[number % GROUPS] = set_line(*EXPRESSIONS[number % 3].decode().split("+"))
            else:
                found.append(repr(answer))
            found += [] if seen == list(known.values()) else [f"after {index}: {answer} {seen}"]
        is_told = refusals == (printed[-1] == ("refused", "true"))
        return found + ([] if is_told else [f"{refusals} refusals"])

    def test_faults_of_expressions(self) -> None:
        for text, kind, code, at in FAULTY:
            printed = self.driver.one(Groups([evaluated(text)]))
            fault = ("fault", f"{kind} {{ at: {at} }} {code}")
            self.holds(f"{text!r}", printed[0] == fault, printed)

    def test_names(self) -> None:
        """No more than 1,024 names have a group; what is no name of a group has none."""
        calls = [defined(b"g%04d" % number, EXPRESSIONS[number % 3]) for number in range(1024)]
        more = [defined(b"g1024", b"E"), defined(b"g0007", b"E"), defined(b"", b"E")]
        more += [looked_up(name) for name in (b"g1024", b"a-b", b"L", b"p", b"g0007")]
        printed = self.driver.one(Groups(calls + more))
        self.holds("1,024 names", printed[:1024] == 1024 * [("defined", "")])
        refused = [("fault", "Full 2"), ("defined", ""), ("fault", "BadName 1")]
        none = 4 * [("none", "")]
        wanted = [*refused, *none, set_line(), ("refused", "false")]
        self.holds("other names", printed[1024:] == wanted, printed[1024:])


class ChangeTest(PlannedTest):
    def test_changes(self) -> None:
        """A changed attribute that neither entry has is not told of."""
        for plan, reported, shown, letters in CHANGES:
            printed = self.driver.one(plan)
            sets = [set_line(*reported, label="reported"), set_line(*shown, label="shown")]
            wanted = [*sets, ("summary", letters.ljust(18).hex())]
            self.holds(f"{plan}", printed[:3] == wanted, (printed, wanted))

    def test_attributes(self) -> None:
        printed = self.driver.one(Groups([evaluated(b"+".join(name.encode() for name in NAMES))]))
        self.holds("all attributes", printed[0] == set_line(*NAMES), printed)
        self.assertEqual(len(NAMES), 33)
