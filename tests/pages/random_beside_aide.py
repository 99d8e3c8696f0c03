"""Compares the built program with AIDE itself, over pairs of databases made by real changes of
files.

AIDE reads a tree of files, random operations change the tree, and AIDE reads it again. Then both
programs compare the two databases, by random report options. Each entry is looked at: in which list
it is, its summary string, and the names of its details. A difference passes only if
aide-compare-program(8) lists it. Each kind is counted. Prints what is not listed and, at the end,
`N passed, M failed`. Needs AIDE and a file system with extended attributes; run by hand.
"""
from __future__ import annotations

import collections
import gzip
import os
import random
import re
import shutil
import subprocess
import sys
import tempfile
from typing import NamedTuple

from tests.lib.tally import Tally
from tools.lib.arguments import add_program, parser_of

# The names of the details of an entry, by its path.
Details = dict[str, list[str]]
SLOTS = "YlZbpugamcinHAXSEC"
ALL = "p+ftype+u+g+s+b+m+c+i+n+l+md5+sha256+sha512+acl+xattrs+e2fsattrs"
GROUPS = [
    "p+ftype+u+g+s+m+sha256+xattrs+acl",
    "p+u+s+i+n+md5",
    "ftype+p+l+s+b+m+c+sha256+sha512+xattrs+e2fsattrs",
]
LEVELS = ["list_entries", "changed_attributes", "added_removed_attributes", "added_removed_entries"]
SETS = [f"report_ignore_{kind}_attrs" for kind in ("added", "removed", "changed")]
LETTERS = dict(zip("l p u g s b m c i n".split(), "l p u g Z b m c i n".split()))
LETTERS.update(md5="H", sha256="H", sha512="H", acl="A", xattrs="X", e2fsattrs="E", ftype="Y")


def change(tree: str, chance: random.Random) -> None:
    """One random operation on the files of a tree."""
    found = list(os.walk(tree))
    paths = [os.path.join(top, name) for top, names, files in found for name in names + files]
    path = chance.choice(paths) if paths else tree
    place = os.path.join(tree, chance.choice(["", "sub", "sub/deep"]))
    os.makedirs(place, exist_ok=True)
    fresh = os.path.join(place, f"new{chance.randrange(10**6)}")
    kind = chance.randrange(12)
    if kind == 0:
        with open(fresh, "wb") as file:
            file.write(bytes(chance.randrange(256) for _ in range(chance.randrange(200))))
    elif kind == 1:
        os.symlink(chance.choice(["target", "other", "a b"]), fresh)
    elif kind == 2:
        os.mkdir(fresh)
    elif kind == 3:
        os.chown(path, chance.randrange(3), chance.randrange(3), follow_symlinks=False)
    elif kind in (4, 5) and not os.path.islink(path):
        if kind == 4:
            os.chmod(path, chance.choice([0o644, 0o600, 0o755, 0o4755]))
        else:
            os.utime(path, (10**9, 10**9 + chance.randrange(1000)))
    elif kind in (6, 7) and not os.path.isdir(path):
        os.remove(path)
        if kind == 7:
            os.symlink("target", path)
    elif kind > 7 and os.path.isfile(path) and not os.path.islink(path):
        change_file(path, fresh, kind, chance)


def change_file(path: str, fresh: str, kind: int, chance: random.Random) -> None:
    name = f"user.x{chance.randrange(3)}"
    if kind == 8:
        with open(path, "ab") as file:
            file.write(b"more")
    elif kind == 9:
        os.truncate(path, 0)
    elif kind == 10:
        os.link(path, fresh)
    elif chance.random() < 0.5:
        os.setxattr(path, name, b"value%d" % chance.randrange(3))
    elif name in os.listxattr(path):
        os.removexattr(path, name)


def read_tree(folder: str, tree: str, group: str, name: str) -> None:
    """A database that AIDE writes of a tree, unpacked."""
    conf, packed = os.path.join(folder, "init.conf"), os.path.join(folder, name + ".gz")
    with open(conf, "w") as file:
        file.write(f"database_out=file:{packed}\ngzip_dbout=yes\n{tree} {group}\n")
    subprocess.run(["aide", "--init", "-c", conf], check=True, stdout=subprocess.DEVNULL)
    with gzip.open(packed) as file, open(os.path.join(folder, name), "wb") as plain:
        plain.write(file.read())
    os.remove(packed)


def options(chance: random.Random) -> dict[str, str]:
    """Random options of the report, as a map."""
    chosen = {"report_level": chance.choice(LEVELS)}
    for name in (*SETS, "report_force_attrs"):
        if chance.random() < 0.4:
            chosen[name] = "+".join(chance.sample(ALL.split("+"), chance.randrange(1, 4)))
    for name in ("report_grouped", "report_base16"):
        if chance.random() < 0.3:
            chosen[name] = chance.choice(["yes", "no"])
    return chosen


def entries(report: str) -> tuple[dict[str, str], Details]:
    """The list lines of a report by path, and the names of the details by path."""
    rows = re.findall(r"^([a-z!?].{17}): (/.*)$", report, re.M)
    details = {}
    for path, block in re.findall(r"^[A-Z][\w ]*: (/.*)\n((?: +\S.*\n)+)", report, re.M):
        found = re.findall(r"^ {1,2}([A-Z]\w[\w/ -]*?) *:", block, re.M)
        details[path] = [name.strip() for name in found]
    return {path: letters for letters, path in rows}, details


class Agreement(Tally):
    """What agreed, and which listed difference the rest is. `label` names the pair."""

    def __init__(self) -> None:
        super().__init__()
        self.told: collections.Counter[str] = collections.Counter()
        self.label = ""

    def tell(self, kind: str) -> None:
        self.told[kind] += 1
        self.holds(kind, True)

    def refuse(self, label: str, *what: object) -> None:
        self.add(label, ["not listed: " + " ".join(map(str, what))])


class Trial(NamedTuple):
    """Two reports by these options, and the entries of which AIDE compares only some attributes."""

    tally: Agreement
    label: str
    chosen: dict[str, str]
    partial: set[str]


def letter_is_told(
    slot: str, theirs: str, ours: str, ignored: set[str], trial: Trial
) -> str | None:
    """Why a letter may differ, by aide-compare-program(8), or None."""
    if slot == "Y" and ours == "!":
        return "another type begins with !"
    if slot in "XEA" and ours in "+-:" and theirs in "XEA:.":
        return "a first or last extended attribute, flag or list"
    if ours in " ." and theirs in " .":
        return "two empty values"
    if slot in ignored and theirs == ":":
        return "an ignored attribute that did not change"
    if slot in ignored and ours == ":":
        return "a forced attribute that is ignored"
    removed = trial.chosen.get("report_ignore_removed_attrs", "").split("+")
    if slot == "Z" and "s" in removed and (theirs, ours) == (">", "<"):
        return "a file that shrank, removed sizes ignored"
    return None


def compare_entry(trial: Trial, path: str, theirs: str | None, ours: str | None) -> None:
    """Compares the summary strings of an entry; None if a report does not list it."""
    tally = trial.tally
    if theirs == ours:
        tally.holds(trial.label, True)
    elif theirs is None and path in trial.partial:
        tally.tell("an attribute that only one of two entries has")
    elif theirs is None and ours and set(ours[1:]) <= set("+-:.= ") and set(ours) & set("+-"):
        tally.tell("a first or last extended attribute, flag or list")
    elif ours is None and theirs and set(theirs[1:]) <= set("XEA:.= <>p") and theirs[0] != "!":
        tally.tell("reported by AIDE only: X, E, or p for a type that is ignored")
    elif theirs is None or ours is None:
        tally.refuse(trial.label, path, "AIDE:", theirs, "here:", ours)
    else:
        compare_letters(trial, path, theirs, ours)


def compare_letters(trial: Trial, path: str, theirs: str, ours: str) -> None:
    named = "+".join(trial.chosen.get(name, "") for name in SETS).split("+")
    ignored = {LETTERS[name] for name in named if name}
    for slot, their, our in zip(SLOTS, theirs, ours):
        if their == our:
            continue
        why = letter_is_told(slot, their, our, ignored, trial)
        if why is None and path in trial.partial:
            why = "one side only"
        if why is None:
            trial.tally.refuse(trial.label, path, "AIDE:", repr(theirs), "here:", repr(ours))
            return
        trial.tally.tell(why)


def compare_details(pair: tuple[Details, Details], trial: Trial, path: str, listed: str) -> None:
    """Compares the sets of names: AIDE's `File type` is `Type` here, and its `Uid` is `UID`."""
    names = {name.lower().replace("file type", "type") for name in pair[0][path]}
    our_names = {name.lower() for name in pair[1][path]}
    tally = trial.tally
    if names == our_names:
        tally.holds(trial.label, True)
    elif path in trial.partial or "report_force_attrs" in trial.chosen:
        tally.tell("details of attributes that one side has, or that are forced")
    elif "+++" in listed or "---" in listed:
        tally.tell("details of added and removed entries have all attributes")
    elif names ^ our_names <= {"xattrs", "e2fsattrs", "acl", "type", "perm"}:
        tally.tell("details of a first or last attribute, or of another type")
    else:
        tally.refuse(trial.label, path, "details", sorted(names ^ our_names))


def compare_reports(program: str, folder: str, chosen: dict[str, str], tally: Agreement) -> None:
    """Both programs' reports of the two databases of a folder, by these options."""
    conf, label = os.path.join(folder, "compare.conf"), f"{tally.label}, {chosen}"
    with open(conf, "w") as file:
        file.write(f"database_in=file:{folder}/old\ndatabase_new=file:{folder}/new\n")
        file.write("".join(f"{name}={value}\n" for name, value in chosen.items()))
        file.write(f"{folder}/tree {ALL}\n")
    theirs, ours = (
        subprocess.run([each, "-E", "-c", conf], capture_output=True, text=True, errors="replace")
        for each in ("aide", program)
    )
    if ours.returncode > 7 or ours.stderr:
        tally.refuse(label, "status", ours.returncode, ours.stderr)
        return
    warned = theirs.stderr + theirs.stdout
    partial = set(re.findall(r"Entry (/.*?) in databases has different attributes", warned))
    trial = Trial(tally, label, chosen, partial)
    (their_list, their_details), (our_list, our_details) = map(
        entries, (theirs.stdout, ours.stdout)
    )
    for path in sorted(their_list.keys() | our_list.keys()):
        compare_entry(trial, path, their_list.get(path), our_list.get(path))
    for path in sorted(their_details.keys() & our_details.keys()):
        compare_details((their_details, our_details), trial, path, our_list.get(path, ""))


def try_pair(program: str, number: int, seed: int, count: int, tally: Agreement) -> None:
    """A pair of databases, and so many random configurations of their reports."""
    chance = random.Random(f"{seed} {number}")
    with tempfile.TemporaryDirectory(prefix="random-beside-aide-") as folder:
        tree = os.path.join(folder, "tree")
        os.mkdir(tree)
        for _ in range(60):
            change(tree, chance)
        group = chance.choice(GROUPS)
        read_tree(folder, tree, group, "old")
        for _ in range(30):
            change(tree, chance)
        read_tree(folder, tree, chance.choice([group] * 3 + GROUPS), "new")
        for turn in range(count):
            tally.label = f"pair {number}, {turn}"
            compare_reports(program, folder, options(chance), tally)


def main() -> int:
    parser = parser_of("tests.pages.random_beside_aide", __doc__)
    add_program(parser)
    parser.add_argument("--pairs", type=int, default=100, help="how many pairs of databases")
    parser.add_argument(
        "--configurations", type=int, default=5, help="how many report configurations for each pair"
    )
    parser.add_argument("--seed", type=int, default=random.SystemRandom().randrange(10**9))
    args = parser.parse_args()
    if not shutil.which("aide"):
        sys.exit("random_beside_aide.py: AIDE is not installed")
    print("seed", args.seed, flush=True)
    tally = Agreement()
    for number in range(args.pairs):
        try_pair(args.program, number, args.seed, args.configurations, tally)
    for kind, count in sorted(tally.told.items()):
        print(f"{count:6} listed: {kind}")
    return int(tally.status())


if __name__ == "__main__":
    sys.exit(main())
