"""Judges wrong bodies: the prover has to leave a goal of each planted function open.

The edits of `crates/NAME/wrong/` that change different functions are planted at once in a copy of
their crate, and one check that goes past open goals judges all of them. An edit is refused if the
check names a goal of the edited function itself: that the function calls another one that is not
proved does not count. What shows no goal, what the check does not name, what does not fit its file
and what belongs to a crate that is not proved as it is has failed.

A goal is refused in one of two ways: the search leaves it open, or its stored answer no longer
fits. With --without-answers the answers of the planted functions are taken away, and an edit has to
leave a goal open that the right body without its answers does not. That is for edits and contracts
that are new, and for an edit by which an answer names what is no longer there.

The libraries below the crates have to be built: `rt check` in a crate does that, and keeps a proof
of it that is begun with here. The last line is 'N passed, M failed'.
"""
from __future__ import annotations

import enum
import glob
import os
import re
import shutil
import signal
import subprocess
import sys
import tempfile
import threading
from collections.abc import Collection, Iterable, Sequence
from typing import NamedTuple

from tests.lib.tally import Tally, side_by_side
from tools.gate.edits import BadEdit, Edit, Function, Group, groups_of, read, Sources
from tools.lib.arguments import parser_of
from tools.source.checker import TOP, kit, libraries, words_over

PARTS = ("src", "specs", "proofs")
# Only for a checker that hangs: the longest check from nothing takes some minutes.
SECONDS = 3600
FUNCTION = re.compile(r"^fn (?P<crate>\w+)::(?P<name>\S+): (?P<words>.*)$", re.M)
# What the checker says of a function's own goals.
QUOTED = re.compile("`([^`]+)`")
OPEN = re.compile(r"`search` did not prove ((?:`[^`]+`(?:, | and )?)+)")
MISFIT = re.compile(r"stands on (.*?), which antt refuses")
ENDED = re.compile(r"^holes=\d+\n?\Z", re.M)
LAW = re.compile(r"^(?:\./)?proofs/\S+: error: `([^`]+)`: ", re.M)
# An edited text that cannot be read shows nothing of a contract.
UNREAD = re.compile(r"^(?:\./)?(?:src|specs)/\S+: error: (.*)$", re.M)


class Goals(NamedTuple):
    """The goals of a function that are not proved: those left open, and those whose stored answer
    does not fit."""

    left_open: frozenset[str]
    misfit: frozenset[str]


class Judged(NamedTuple):
    """What a check said."""

    is_whole: bool
    is_proved: bool
    functions: dict[str, str]
    text: str


class Answers(enum.Enum):
    """What becomes of the stored answers of planted functions."""

    KEPT = enum.auto()
    REMOVED = enum.auto()


def goals_in(words: str, name: str) -> Goals:
    """A function's own goals that a check did not prove."""
    place = f".proofs.{name.replace('::', '.')}."
    left_open = [goal for found in OPEN.findall(words) for goal in QUOTED.findall(found)]
    refused = [goal for found in MISFIT.findall(words) for goal in QUOTED.findall(found)]
    misfit = [goal.rpartition(".")[2] for goal in refused if place in goal]
    return Goals(frozenset(left_open), frozenset(misfit))


class Crate:
    """A crate with a kept proof, over which copies of it are checked: as many at a time, of all
    crates, as there are lanes."""

    def __init__(self, name: str, kept: str, lanes: threading.Semaphore) -> None:
        self.name = name
        self.kept = kept
        self.lanes = lanes
        self.folder = os.path.join(TOP, "crates", name)

    def prove(self) -> Judged:
        """Checks the crate as it is, and keeps its proof."""
        proved = os.path.join(self.folder, "out", "incremental")
        with self.lanes, tempfile.TemporaryDirectory(prefix="judge-") as room:
            if os.path.isdir(proved):
                shutil.copytree(proved, self.kept, dirs_exist_ok=True)
            self._copy(room)
            return self._run(room, self.kept)

    def check(self, texts: dict[str, str], without: Collection[str] = ()) -> Judged:
        """Checks a copy with these texts in place of its own, and without these files. The check
        gets a copy of the kept proof too, since it adds to it."""
        with self.lanes, tempfile.TemporaryDirectory(prefix="judge-") as room:
            self._copy(room)
            for path, text in texts.items():
                with open(os.path.join(room, path), "w", encoding="utf-8") as file:
                    file.write(text)
            for path in without:
                if os.path.exists(os.path.join(room, path)):
                    os.remove(os.path.join(room, path))
            return self._run(room, shutil.copytree(self.kept, os.path.join(room, "kept")))

    def _copy(self, room: str) -> None:
        for part in PARTS:
            if os.path.isdir(os.path.join(self.folder, part)):
                shutil.copytree(os.path.join(self.folder, part), os.path.join(room, part))

    def _run(self, room: str, kept: str) -> Judged:
        root = "main" if os.path.exists(os.path.join(room, "src/main.rt")) else "lib"
        words = [os.path.join(kit(), "bin", "rattle"), "check", "--crate-name", self.name]
        words += [f"src/{root}.rt", *words_over(self.name, libraries(), kit()), "--jobs", "1"]
        words += ["--incremental", kept, "--allow-holes"]
        with subprocess.Popen(
            words,
            cwd=room,
            stdin=subprocess.DEVNULL,
            stdout=subprocess.PIPE,
            stderr=subprocess.STDOUT,
            start_new_session=True,
        ) as check:
            try:
                said = check.communicate(timeout=SECONDS)[0]
            except subprocess.TimeoutExpired:
                os.killpg(check.pid, signal.SIGKILL)
                said = check.communicate()[0]
        text = said.decode("utf-8", "replace")
        functions = {found["name"]: found["words"] for found in FUNCTION.finditer(text)}
        is_whole = bool(ENDED.search(text)) and check.returncode in (0, 1)
        return Judged(is_whole, check.returncode == 0, functions, text)


def answers_of(names: Collection[str]) -> list[str]:
    """Where the stored answers of functions are."""
    return [os.path.join("proofs", *name.split("::"), "Answers.antt") for name in names]


def names_of(functions: Collection[Function], named: Collection[str]) -> list[str]:
    """How a check calls functions, and the closures in them."""
    return [name for name in named if any(each.is_named(name) for each in functions)]


def ways_of(judged: Judged, names: Iterable[str], right: Judged | None) -> list[str]:
    """The goals of functions that are not proved: a text for each function that has some. Those
    that are open in the right body too do not count."""
    ways = []
    for name in names:
        left_open, misfit = goals_in(judged.functions.get(name, ""), name)
        if right is not None:
            left_open -= goals_in(right.functions.get(name, ""), name).left_open
            misfit = frozenset()
        if left_open:
            ways.append(f"{name}: open: {' '.join(sorted(left_open))}")
        elif misfit:
            ways.append(f"{name}: an answer no longer fits: {' '.join(sorted(misfit))}")
    return ways


def refusal(judged: Judged, names: Sequence[str], right: Judged | None) -> str:
    """Which goals refuse planted functions. Raises BadEdit if none does."""
    ways = ways_of(judged, names, right)
    if not ways:
        said = "; ".join(judged.functions.get(name, "not named by the check") for name in names)
        raise BadEdit(f"NOT REFUSED by a goal of its own ({said or 'no such function'})")
    return "; ".join(ways)


def refusal_of_definition(judged: Judged) -> str:
    """Which functions or laws refuse a wrong definition or constant. Raises BadEdit if none does."""
    ways = ways_of(judged, judged.functions, None)
    ways += [f"the law {law}" for law in LAW.findall(judged.text)]
    if not ways:
        raise BadEdit("NOT REFUSED by a goal of a function, or by a law")
    return "; ".join(ways[:3])


class Verdict(NamedTuple):
    """What is said of an edit: how it is refused, or else its fault."""

    label: str
    way: str
    fault: str


class Judge:
    """Judges the edits of one crate, over a kept proof of it."""

    def __init__(self, crate: Crate, right: Judged, answers: Answers) -> None:
        self.crate = crate
        self.right = right
        self.answers = answers

    def groups(self, groups: Sequence[Group]) -> list[Verdict]:
        """Judges groups side by side."""
        count = max(1, len(groups))
        judged = side_by_side(count, lambda group: self.group(group, self.answers), groups)
        return [each for verdicts in judged for each in verdicts]

    def group(self, group: Group, answers: Answers) -> list[Verdict]:
        """Judges the edits of a group in one check. If that check says nothing, each edit gets one
        of its own, so that the one at fault is named. Edits that seem not to be refused are tried
        without the stored answers too: an answer may name what the edit takes away."""
        names = {edit: names_of(functions, self.right.functions) for edit, functions in group.edits}
        without: list[str] = []
        bare = None
        if answers is Answers.REMOVED:
            without = answers_of([each for found in names.values() for each in found])
            bare = self.crate.check({}, without)
        judged = self.crate.check(group.sources.texts, without)
        if not judged.is_whole and len(group.edits) > 1:
            alone = [self._alone([each]) for each in group.edits]
            return [each for one in alone for each in self.group(one, answers)]
        verdicts, again = [], []
        for edit, functions in group.edits:
            try:
                way = verdict(judged, functions, names[edit], bare)
                verdicts.append(Verdict(str(edit), way, ""))
            except BadEdit as error:
                if answers is Answers.KEPT and functions and judged.is_whole:
                    again.append((edit, functions))
                else:
                    verdicts.append(Verdict(str(edit), "", str(error)))
        return verdicts + (self.group(self._alone(again), Answers.REMOVED) if again else [])

    def _alone(self, edits: Iterable[tuple[Edit, frozenset[Function]]]) -> Group:
        """Some edits of a group in one of their own."""
        group = Group([], Sources(self.crate.folder))
        for edit, functions in edits:
            group.take(edit, functions)
        return group


def verdict(
    judged: Judged, functions: Collection[Function], names: list[str], bare: Judged | None
) -> str:
    """How an edit is refused. Raises BadEdit if it is not."""
    if not judged.is_whole:
        raise BadEdit(f"NOT JUDGED: the check did not end: {judged.text[-500:]}")
    unread = UNREAD.search(judged.text)
    if unread and not functions:
        raise BadEdit(f"BAD EDIT: the edited text cannot be read: {unread[1]}")
    return refusal(judged, names, bare) if functions else refusal_of_definition(judged)


def judge_crate(name: str, answers: Answers, lanes: threading.Semaphore) -> list[Verdict]:
    """Judges all edits of a crate."""
    folder = os.path.join(TOP, "crates", name)
    fitting: list[tuple[Edit, frozenset[Function]]] = []
    unfit = []
    for path in sorted(glob.glob(os.path.join(folder, "wrong", "*.edit"))):
        try:
            edit = read(name, path)
            fitting.append((edit, Sources(folder).functions(edit)))
        except BadEdit as error:
            label = f"{name}/{os.path.basename(path)[: -len('.edit')]}"
            unfit.append(Verdict(label, "", f"BAD EDIT: {error}"))
    with tempfile.TemporaryDirectory(prefix="judge-kept-") as kept:
        crate = Crate(name, kept, lanes)
        right = crate.prove()
        if not right.is_proved:
            print(right.text[-2000:], flush=True)
            fault = "its crate is not proved as it is"
            return [*unfit, *(Verdict(str(edit), "", fault) for edit, _ in fitting)]
        return [*unfit, *Judge(crate, right, answers).groups(groups_of(folder, fitting))]


def in_turn(first: Sequence[str] = ()) -> list[str]:
    """The crates that have edits: these first, and then those with most edits."""
    paths = glob.glob(os.path.join(TOP, "crates", "*", "wrong", "*.edit"))
    names = [path.split(os.sep)[-3] for path in paths]
    return sorted(set(names), key=lambda name: (name not in first, -names.count(name), name))


def judge_all(
    tally: Tally, jobs: int, names: Sequence[str], answers: Answers = Answers.KEPT
) -> None:
    """Judges the edits of crates by so many checks at a time."""
    lanes = threading.Semaphore(jobs)
    for verdicts in side_by_side(jobs, lambda name: judge_crate(name, answers, lanes), names):
        for label, way, fault in sorted(verdicts):
            if way:
                print(f"{label}: {way}", flush=True)
            tally.add(label, [fault] if fault else [])


def main() -> int:
    """Judges the edits of the crates that were named, or of all."""
    parser = parser_of("tools.gate.judge", __doc__)
    parser.add_argument("names", nargs="*", metavar="CRATE", help="crates (all)")
    parser.add_argument(
        "--without-answers",
        action="store_true",
        help="without the stored answers of the planted functions",
    )
    parser.add_argument("--jobs", type=int, default=1, metavar="N", help="checks at a time (1)")
    args = parser.parse_args()
    answers = Answers.REMOVED if args.without_answers else Answers.KEPT
    tally = Tally()
    judge_all(tally, args.jobs, args.names or in_turn(), answers)
    return tally.status()


if __name__ == "__main__":
    sys.exit(main())
