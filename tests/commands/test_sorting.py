"""aide-compare sort: path order by a plain definition, and its bounds."""
from __future__ import annotations

import gzip
import os
import random
import re
import subprocess
import sys
from typing import Any

from tests.commands.sandbox import CommandTest
from tests.lib.answer import Answer
from tests.lib.program_test import slow
from tests.oracle.fields import decoded

BEGIN, END = b"# c\n@@begin_db\n@@db_spec attr name size\n", b"@@end_db\nrest\n\nmore"
PIECES = [
    *(b"a b A 0 ! . - % %4 %2f %2F %00 %01 %02 %0a %09 %20".split()),
    *(b"\\", b"\x00", b"\x01", b"\x02", b"\x0b", b"\r", b"\x7f", b"\xff", b"\xc3\xa9"),
]
# It prints the most memory, in kB, of a command and of what that has started.
MEASURE = """import os, resource, subprocess, sys
status = subprocess.call(sys.argv[1:])
sys.stderr.write("memory %d\\n" % resource.getrusage(resource.RUSAGE_CHILDREN).ru_maxrss)
sys.exit(status)"""


def pieces_of(entry: bytes) -> list[bytes]:
    return bytes(decoded(re.split(rb"[ \t]+", entry.strip(b" \t"))[1])).split(b"/")


def text_of(lines: list[bytes]) -> bytes:
    return BEGIN + b"".join(line + b"\n" for line in lines) + END


def sorted_text(lines: list[bytes]) -> tuple[bytes, int]:
    """Lines as a database in path order, and how many have to come before the one above."""
    entries = [line for line in lines if line.strip(b" \t") and not line.startswith(b"#")]
    rest = [line for line in lines if line not in entries]
    breaks = sum(pieces_of(one) > pieces_of(next) for one, next in zip(entries, entries[1:]))
    return text_of(rest + sorted(entries, key=pieces_of)), breaks


def random_lines(pick: random.Random, count: int) -> list[bytes]:
    """Entries of different paths, with lines that are none among them."""
    known: set[bytes] = set()
    lines = []
    for _ in range(count):
        path = b"/" + b"".join([pick.choice(PIECES + [b"/"]) for _ in range(pick.randint(0, 6))])
        if decoded(path) not in known:
            known.add(decoded(path))
            blanks = pick.choice([b"", b" ", b"\t"]), pick.choice([b" ", b"\t", b" \t "])
            lines.append(b"%s36%s%s 1" % (*blanks, path))
            lines += pick.choice([[], [], [b""], [b"# note"], [b" \t"]])
    return lines


def write_large(path: str, count: int) -> None:
    """A database whose entries are far from path order."""
    with open(path, "wb") as file:
        file.write(BEGIN)
        for number in range(count):
            file.write(b"36 /usr/%07d/%s 1\n" % (number * 7919 % count, b"x" * 900))
        file.write(END)


class SortingTest(CommandTest):
    def sort(
        self, text: bytes, *words: str, before: list[str] | None = None, **more: Any
    ) -> Answer:
        more = {"stdout": subprocess.PIPE, "env": self.surroundings(), **more}
        command = [*(before or []), *self.command("aide-compare sort", *words)]
        done = subprocess.run(command, input=text, stderr=subprocess.PIPE, timeout=600, **more)
        self.assertNotIn(b"Traceback", done.stderr)
        return Answer(done.stdout or b"", done.stderr, done.returncode)

    def surroundings(self) -> dict[str, str]:
        return {**os.environ, "TMPDIR": self.room}

    def test_order(self) -> None:
        pick = random.Random(5)
        for number in range(12):
            lines = random_lines(pick, 400)
            wanted, breaks = sorted_text(lines)
            text = text_of(lines)
            answer = self.sort(gzip.compress(text) if number % 2 else text)
            self.expect("order %d" % number, answer, 0, None, b"out of order: %d of " % breaks)
            self.assertEqual(answer.output, wanted)

    def test_advice(self) -> None:
        """One line out of order is damage in what AIDE wrote; without one there is no advice."""
        lines = [b"36 /%05d 1" % number for number in range(13257)]
        whole = text_of(lines)
        moved = lines[:100] + lines[101:9000] + [lines[100]] + lines[9000:]
        advice = [b"straight from AIDE, it is damaged", b"make it anew"]
        for text, count in ((text_of(moved), 1), (whole, 0)):
            answer = self.sort(text)
            said = b": out of order: %d of 13257 lines\n" % count
            self.expect("%d out of order" % count, answer, 0, None, [said, *advice[: 2 * count]])
            self.assertEqual(answer.output, whole)
            self.assertEqual(b"damaged" in answer.errors, count == 1)

    def test_twice(self) -> None:
        lines = [b"1 /b\\ 1", b"2 /a 2", b"3 /b%5C 3", b"4 /b\\ 4"]
        answer = self.sort(text_of(lines))
        said = b"aide-compare sort: appears twice: /b\\134\n"
        self.expect("a path twice", answer, 24, text_of([lines[1], lines[0], *lines[2:]]), said)
        many = [b"1 /%04d 1" % (number // 2) for number in range(400)]
        said_of = [b"/0099\n", b"more paths that appear twice: 100\n"]
        self.expect("200 paths twice", self.sort(text_of(many)), 24, None, said_of)

    def test_terminal(self) -> None:
        """No database is written to a terminal, which would obey some of its bytes."""
        write_large(os.path.join(self.root, "a.db"), 1)
        for words in (["sort", "a.db"], ["archive", "--user=nobody", "--from=.", "a.db", "a.db"]):
            status, text = self.terminal("aide-compare", *words).end()
            self.assertEqual(status, 15, text)
            self.assertIn(b": standard output is a terminal: write the database to a file\n", text)

    def test_refused(self) -> None:
        whole = text_of([b"1 /%x 1" % number for number in range(5000)])
        packed = gzip.compress(whole)
        long = BEGIN + b"36 /" + b"x" * (1 << 20) + b"\n" + END
        rows: list[tuple[str, bytes, list[str], int, bytes]] = [
            ("a cut gzip file", packed[:-20], [], 18, b"cut short or damaged"),
            ("no end", whole[: whole.index(b"@@end")], [], 24, b"no @@end_db"),
            ("nothing", b"", [], 24, b"no @@end_db"),
            ("no names", b"@@begin_db\n/a 1\n" + END, [], 24, b"line 2: an entry before @@db_spec"),
            ("no path", BEGIN + b"36\n" + END, [], 24, b"line 4: no path"),
            ("a long line", long, [], 24, b"line 4: more than 1048576 bytes"),
            ("too many bytes", whole, ["--max-size", "1k"], 18, b"more than 1024 bytes unpacked"),
            ("no such option", whole, ["--other"], 15, b"try: aide-compare sort --help"),
            ("no such file", whole, ["/nowhere"], 18, b"cannot open"),
        ]
        for label, text, words, status, errors in rows:
            self.expect(label, self.sort(text, *words), status, b"", errors)
        with open("/dev/full", "wb") as full:
            answer = self.sort(whole, stdout=full)
        self.expect(
            "a full device", answer, 18, b"", b"cannot write standard output: No space left"
        )
        text = text_of([b"36 /%x %s" % (number, b"x" * 200) for number in range(50000)])
        # In blocks of 512 bytes or, for some shells, of 1024.
        limited = ["sh", "-c", 'ulimit -f 4096; exec "$@"', "sh"]
        answer = self.sort(gzip.compress(text), before=limited)
        self.expect("no room for the copy", answer, 18, b"", b"too large")

    def measured(self, text: bytes, *words: str) -> Answer:
        """The answer of a command that takes no more than 64 MB."""
        answer = self.sort(text, *words, before=[sys.executable, "-IS", "-c", MEASURE])
        self.assertLess(int(answer.errors.split(b"memory ")[-1]), 64000, answer)
        return answer

    @slow
    def test_bounds(self) -> None:
        path = self.path("large.db")
        write_large(path, 90000)
        answer = self.measured(b"", path)
        self.expect("84 MB", answer, 0, None, b" of 90000 lines")
        keys = [line.split()[1] for line in answer.output.splitlines() if line.startswith(b"36 ")]
        self.assertEqual((len(keys), keys == sorted(keys)), (90000, True))
        bomb = gzip.compress(bytes(100000000), 1)
        said = b"more than 20971520 bytes unpacked"
        self.expect("100 MB of zeros", self.measured(bomb, "--max-size", "20M"), 18, b"", said)
