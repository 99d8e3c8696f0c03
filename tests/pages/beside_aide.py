"""Tries what aide-compare-program(8) says of AIDE, on AIDE itself and on the built program.

Each case is one configuration and one pair of databases, given to both programs. If AIDE is not
installed, the tool says so and tries nothing. Prints each case whose answer is not the one that the
page gives and, at the end, `N passed, M failed`.
"""
from __future__ import annotations

import os
import re
import shutil
import socket
import subprocess
import sys
from typing import Any
from urllib.parse import unquote_to_bytes

from tests.lib.answer import Answer, run
from tests.lib.scratch import Scratch
from tests.lib.tally import Tally
from tests.pages.cases_beside_aide import A, BOTH, CASES, CONFIGURATION, RULES, TYPE, Case
from tools.lib.arguments import add_program, parser_of

AIDE = shutil.which("aide") or ""
BITS = {"l": 1, "p": 2, "u": 3, "g": 4, "s": 5, "a": 6, "c": 7, "m": 8, "i": 9, "b": 10, "n": 11}
# The bits of digests and of texts without further meaning.
OTHER_BITS = {
    **dict(zip("md5 sha1 rmd160 tiger crc32 haval gost crc32b".split(), range(12, 20))),
    **{"acl": 21, "selinux": 32, "sha256": 30, "sha512": 31, "xattrs": 33, "whirlpool": 34},
    **{"e2fsattrs": 36, "capabilities": 37},
}
NAMES = b"a/b/c a/b.c a-b a%20b a a.txt a@b B %c3%bc %ff new%0aline per%2541 # ~ a/%01".split()


class Trial(Scratch, Tally):
    """A folder of its own, and the counts."""

    def __init__(self, program: str) -> None:
        Tally.__init__(self)
        self.make("beside-aide-")
        self.program = os.path.abspath(program)

    def run(self, program: str, words: list[str], **more: Any) -> Answer:
        return run(program, words, cwd=self.root, **more)

    def put(self, case: Case) -> list[str]:
        """Writes a case's files, and gives its words."""
        places = {
            "OLD": self.write("old", case.old),
            "NEW": self.write("new", case.new),
            "DIR": self.root,
        }
        for name, text in case.files.items():
            self.write(name, text)
        conf, *words = [
            re.sub("OLD|NEW|DIR", lambda found: places[str(found[0])], text)
            for text in (case.conf, *case.words)
        ]
        return [case.command, "-c", self.write("conf", conf), *words]

    def case(self, case: Case) -> None:
        words = self.put(case)
        for program, status, text in zip((AIDE, self.program), case.statuses, case.texts):
            got = self.run(program, words)
            good = got.status == status and re.search(text, got.output_text)
            self.holds(f"{case.name}: {program}, wanted {status}", good, got)

    def scan(self, rule: str) -> tuple[list[str], list[bytes]]:
        """The columns and the entries of a database that AIDE writes of the folder `tree`."""
        text = f"database_out=file:{self.path('scanned')}\n{self.path('tree')} {rule}\n"
        done = self.run(AIDE, ["--init", "-c", self.write("init.conf", text)])
        self.holds("aide --init", done.status == 0, done)
        with open(self.path("scanned"), "rb") as file:
            lines = file.read().split(b"\n")
        columns = next(line for line in lines if line.startswith(b"@@db_spec ")).decode()
        return columns.split()[1:], [line for line in lines if line.startswith(b"/")]


def try_order(trial: Trial) -> None:
    """AIDE writes path order, for names with all kinds of bytes, however many workers it has."""
    for name in map(unquote_to_bytes, NAMES):
        path = os.fsencode(trial.path("tree")) + b"/" + name
        os.makedirs(path, exist_ok=True)
        for number in range(20):
            open(path + b"-%d" % number, "w").close()
    for workers in (0, 1, 4):
        entries = trial.scan(f"R\nnum_workers={workers}")[1]
        paths = [unquote_to_bytes(line.split(b" ")[0]) for line in entries]
        good = len(paths) > 300 and paths == sorted(paths, key=lambda path: path.split(b"/"))
        trial.holds(f"AIDE writes path order, {workers} workers", good)
        trial.holds("path order is not the order of bytes", paths != sorted(paths))


def try_bits(trial: Trial) -> None:
    """The bits of the column attr are AIDE's. Where AIDE writes a digest or a text without further
    meaning, the bit of its attribute is set too; that of the type is not without a rule for it."""
    trial.write("tree/file", "")
    os.symlink("file", trial.path("tree/link"))
    for name, bit in BITS.items():
        columns, entries = trial.scan(name)
        link = next(line for line in entries if line.split(b" ")[0].endswith(b"/link"))
        attr = int(link.split()[columns.index("attr")])
        trial.holds("bit of " + name, [k for k in BITS.values() if attr >> k & 1] == [bit], attr)
    columns, entries = trial.scan("R+H+b+a")
    rows = [dict(zip(columns, entry.decode(errors="replace").split())) for entry in entries]
    alone = [
        (row["name"], name)
        for row in rows
        for name, bit in OTHER_BITS.items()
        if row.get(name, "0") != "0" and not int(row["attr"]) >> bit & 1
    ]
    trial.holds("a field without its bit", rows and not alone, alone)
    columns, entries = trial.scan("s")
    attrs = [int(entry.split()[columns.index("attr")]) for entry in entries]
    trial.holds("the type without a rule for it", not any(attr >> TYPE & 1 for attr in attrs))


def try_devices(trial: Trial) -> None:
    """A full device, a reader that has gone, a pipe and a FIFO."""
    words = trial.put(CONFIGURATION[0])
    for program, status in ((AIDE, 4), (trial.program, 18)):
        with open("/dev/full", "wb") as full:
            got = trial.run(program, words, stdout=full)
        trial.holds("a full device: " + program, got.status == status, got)
    for program, status in ((AIDE, -13), (trial.program, 18)):
        reader, writer = os.pipe()
        os.close(reader)
        got = trial.run(program, words, stdout=writer)
        os.close(writer)
        trial.holds("a reader that has gone: " + program, got.status == status, got)
    conf = BOTH.replace("NEW", trial.path("new"))
    trial.write("conf", conf.replace("OLD", "/dev/stdin"))
    for program, status in ((AIDE, 4), (trial.program, 18)):
        done = subprocess.run([program, *words], input=A.encode(), capture_output=True)
        trial.holds("a pipe as database: " + program, done.returncode == status, done)
    fifo = trial.path("fifo")
    os.mkfifo(fifo)
    trial.write("conf", conf.replace("OLD", fifo))
    for program, wanted in ((AIDE, 4), (trial.program, None)):
        writer_of_fifo = subprocess.Popen(["cp", trial.write("plain", A), fifo])
        ended: int | None = None
        try:
            ended = subprocess.run([program, *words], capture_output=True, timeout=3).returncode
        except subprocess.TimeoutExpired:
            pass  # It waits for the next writer.
        writer_of_fifo.wait()
        trial.holds("a FIFO as database: " + program, ended == wanted, ended)


def try_answers(trial: Trial) -> None:
    groups = dict(re.findall(r"^(\S): (.*)$", trial.run(AIDE, ["--version"]).output_text, re.M))
    for group, wanted in ((">", {"s", "growing"}), ("R", {*"lpugscmin", "md5", "ftype"})):
        found = set(groups.get(group, "").split("+"))
        trial.holds("AIDE's group " + group, wanted <= found, groups)
    for word, statuses in (("-E", (17, 15)), ("--help", (0, 15))):
        got = tuple(trial.run(each, [word]).status for each in (AIDE, trial.program))
        trial.holds(f"the word {word} alone", got == statuses, got)
    conf = RULES + "database_in=file:DIR/@@{HOSTNAME}\ndatabase_new=file:NEW\n"
    trial.case(Case("HOSTNAME", (4, 18), conf, files={socket.gethostname().split(".")[0]: A}))


def main() -> int:
    parser = parser_of("tests.pages.beside_aide", __doc__)
    add_program(parser)
    args = parser.parse_args()
    if not AIDE:
        print("skipped: AIDE is not installed")
        return 0
    trial = Trial(args.program)
    version = trial.run(AIDE, ["--version"]).output_text.split("\n")[0]
    is_described = version.startswith("AIDE 0.18.")
    print(version, "" if is_described else "(the manual page describes 0.18.3)")
    try:
        for case in CASES:
            trial.case(case)
        try_answers(trial)
        try_devices(trial)
        try_order(trial)
        try_bits(trial)
    finally:
        trial.remove()
    return int(trial.status())


if __name__ == "__main__":
    sys.exit(main())
