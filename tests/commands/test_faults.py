"""aide-compare when something fails: limits, damage, a full disk, no right, signals, readers; and
the lines that explain an error of the program."""
from __future__ import annotations

import contextlib
import gzip
import os
import shutil
import signal
import subprocess

from tests.lib.waiting import until

from . import mail
from .sandbox import CommandTest, DIFFER, NEW, OLD, SMALL_FILES, UMASK

TOOL = "aide-compare compare --report"


def running(word: bytes) -> list[int]:
    """The processes that have the word in their command line."""
    found: list[int] = []
    for number in filter(str.isdigit, os.listdir("/proc")):
        try:
            with open("/proc/%s/cmdline" % number, "rb") as file:
                found += [int(number)] if word in file.read().split(b"\0") else []
        except OSError:
            pass
    return found


class FaultsTest(CommandTest):
    def put_away(self, program: str) -> str:
        """Moves a program of the sandbox, which then has none of its name. Returns its path."""
        away = program + ".away"
        os.rename(program, away)
        return away

    def test_limits(self) -> None:
        """No process takes or writes many more bytes of a database than --max-size allows."""
        most = max(len(OLD), len(NEW))
        for new in ("new.db", "new.db.gz"):
            self.answered(7, None, DIFFER, TOOL, "--max-size", str(most), "old.db", new)
            told = b"the old database %s has more than %d bytes unpacked" % (new.encode(), 20)
            self.refused(18, told, TOOL, "--max-size", "20", new, "old.db")
        few = {"before": SMALL_FILES % (1500000, 1500000)}
        words = (TOOL, "--max-size", "1000000", "old.db")
        with subprocess.Popen(["yes", "/a"], stdout=subprocess.PIPE) as writer:
            told = b"the new database /dev/stdin has more than 1000000 bytes unpacked"
            self.refused(18, told, *words, "/dev/stdin", stdin=writer.stdout, **few)
        self.assertNotEqual(writer.returncode, 0, "an endless stream is ended")
        self.write("bomb.gz", gzip.compress(b"\0" * 50000000))
        self.refused(18, b"more than 1000000 bytes", *words, "bomb.gz", **few)

    def test_rooms(self) -> None:
        """TMPDIR is missing, or has any name, and a limit on files holds in it."""
        words = (TOOL, "old.db", "new.db")
        nowhere = {"TMPDIR": self.path("missing")}
        self.refused(18, b"name another directory by TMPDIR", *words, environment=nowhere)
        os.makedirs(self.path("a room\n"))
        for name in ("room", self.path("a room\n")):
            self.answered(7, b"Changed", DIFFER, *words, environment={"TMPDIR": name})
        self.assertEqual(os.listdir(self.path("a room\n")), [])
        self.write("large.db", NEW + b"#" * 50000)
        self.write("large.db.gz", gzip.compress(NEW + b"#" * 50000))
        for new in ("large.db", "large.db.gz"):
            refusal: list[bytes] = [b"the new database " + new.encode(), b"too large"]
            self.refused(18, refusal, TOOL, "old.db", new, before=SMALL_FILES % (20000, 20000))
        lines = b"".join(b"/b%d 36 100644 1\n" % number for number in range(1000, 1400))
        self.write("many.db", NEW.replace(b"/c ", lines + b"/c "))
        few = {"before": SMALL_FILES % (20000, 20000)}
        self.refused(18, b"cannot keep the changes in ", TOOL, "old.db", "many.db", **few)
        said = b"cannot keep an output in "
        self.refused(18, said, "aide-compare page", "old.db", "new.db", **few)

    def test_full_disk(self) -> None:
        small = self.path("small")
        os.makedirs(small)
        self.write("large.db", NEW + b"#" * 50000)
        with self.mounted("small", "-t", "tmpfs", "-o", "size=32k", "none") as is_small:
            if not is_small:
                self.skipTest("nothing can be mounted here")
            told = f"database large.db to {small} (name another directory by TMPDIR): No ".encode()
            words = (TOOL, "old.db", "large.db")
            self.refused(18, told, *words, state="state", environment={"TMPDIR": small})
            self.assertEqual(os.listdir(small), [], "nothing is left on a full disk")
            self.write("cut.db", NEW[:-9])
            causes: list[bytes] = [b"cannot write the state file"]

            def fill() -> None:
                with contextlib.suppress(OSError), open(f"{small}/filler", "wb") as filler:
                    shutil.copy(self.path("state"), small)
                    filler.write(b"x" * 65536)

            for new in ("new.db", "cut.db"):
                fill()
                self.refused(18, causes, "aide-compare -q", "old.db", new, "--state=small/state")
                self.assertNotIn("state", os.listdir(small), "no state of an older run")
                causes = [b"no @@end_db", *causes]
            mail.prepare(self)
            fill()
            answer = mail.call(self, "old.db", new, "--state=small/state")
            self.expect("a mail", answer, 18, b"", b"cannot write the state file")
            self.assertIn(b"no @@end_db", mail.body(mail.sent(self)), "the first cause")

    def test_no_program(self) -> None:
        """The program is found beside the command only."""
        self.put_away(self.program)
        told = b"cannot find " + self.program.encode()
        path = {"PATH": ".::%s:/usr/bin:/bin" % self.path("stubs")}
        for folder in ("empty", "", "stubs"):
            name = self.stub("aide", "exit 0", folder)
            self.refused(18, told, TOOL, "old.db", "new.db", environment=path)
            os.remove(name)

    def test_programs(self) -> None:
        """A program that does not start, is killed, or answers what is not borne out: nothing was
        compared, and the state says so."""
        away = self.put_away(self.program)
        for label, body, said in (
            ("a loader", 'echo "GLIBC_2.34 not found" >&2; exit 1', b"GLIBC_2.34"),
            ("a signal", "kill -9 $$", b"ended by signal 9"),
            ("another report", "echo AIDE found NO differences; exit 4", b"aide-compare: "),
            ("another status", f'exec "{away}" "$@" > /dev/null', b"aide-compare: "),
            ("counts of another status", f'"{away}" "$@"; exit 3', b"aide-compare: "),
            ("other error lines", f'"{away}" "$@"; echo "aide: odd" >&2; exit 7', b": aide: odd"),
        ):
            self.stub("aide", '[ "$1" = -D ] && exit 0; ' + body, "libexec/aide-compare")
            with self.subTest(label):
                self.refused(18, said, TOOL, "old.db", "new.db", state="state")
        body = '[ "$1" = -D ] || { printf "aide: a\\001b\\naide: c\\n" >&2; exit 18; }'
        self.stub("aide", body, "libexec/aide-compare")
        told = b"aide: a\\001b\naide: c\n"
        self.refused(18, told, TOOL, "old.db", "new.db", state="state")
        state = self.state()
        self.assertEqual((state["error"], len(state)), ("aide: a\\001b", 20), "an odd error line")

    def test_closed_errors(self) -> None:
        """Nobody reads the error lines: the status and the state are as they would be."""
        self.write("faulty.db", NEW.replace(b"644 5", b"644 5x"))
        for new, status in (("faulty.db", 24), ("missing", 18)):
            reading, writing = os.pipe()
            os.close(reading)
            process = self.start(TOOL, "old.db", new, "--state", "state", stderr=writing)
            os.close(writing)
            process.communicate()
            self.assertEqual(process.returncode, status, new)
            self.assertEqual(self.state()["status"], str(status), new)

    def test_lines_program(self) -> None:
        """A program of lines that does not start, is cut, or says what is not borne out: nothing
        was compared, and no brief, no lines and no alarm rest on it."""
        away = self.put_away(self.lines_program)
        whole = f'"{away}" "$@"'
        told = b"cannot find " + self.lines_program.encode()
        self.refused(18, told, "aide-compare", "old.db", "new.db", state="state")
        other = b"its answer does not say so"
        for label, body, said in (
            (
                "a loader that ends with 1",
                'echo "GLIBC_2.34 not found" >&2; exit 1',
                b"does not run here: GLIBC_2.34 not found",
            ),
            ("no lines", "exit 4", b"ended with status 4, but " + other),
            ("other lines", 'echo "{}"; exit 7', other),
            ("lines without an end", whole + " | head -n 3; exit 7", other),
            ("lines with something after the end", whole + "; echo; exit 7", other),
            ("another end", whole + """ | sed '$s/"added":1/"added":2/'; exit 7""", other),
            ("another status", whole + "; exit 3", b"ended with status 3, but " + other),
            ("differences without a status", whole + "; exit 0", other),
            ("a status of another program", whole + "; exit 99", b"could not be run: status 99"),
            ("a signal", "kill -9 $$", b"ended by signal 9"),
        ):
            self.stub("aide_lines", body, "libexec/aide-compare")
            with self.subTest(label):
                self.refused(18, said, "aide-compare", "-q", "old.db", "new.db", state="state")
        self.refused(18, said, "aide-compare", "-v", "old.db", "new.db")
        self.stub("aide_lines", 'echo "{}"', "libexec/aide-compare")
        words = ("--state", "state", "-A", "report_force_attrs=p", "old.db", "new.db")
        self.refused(18, other, "aide-compare", *words)

    def test_signals(self) -> None:
        """Signals while the program runs: the command ends by the signal, at once, and leaves
        nothing, also after SIGKILL. A caller may ignore that his children end."""
        deaf = "signal.signal(signal.SIGCHLD, signal.SIG_IGN)"
        self.answered(7, None, DIFFER, TOOL, "old.db", "new.db", before=deaf)
        self.put_away(self.program)
        nap = "%d.%d" % (300 + os.getpid() % 100, os.getpid())
        started = self.path("started")
        body = f'case $1 in -E) echo x > "{started}"; exec sleep {nap};; esac'
        self.stub("aide", body, "libexec/aide-compare")
        self.write("state", b"as before\n")
        for name in ("HUP", "INT", "QUIT", "TERM", "KILL"):
            with self.subTest(name):
                self.signal_program(getattr(signal, "SIG" + name), started)
                is_gone = until(lambda: not running(nap.encode()))
                for child in running(nap.encode()):
                    os.kill(child, signal.SIGKILL)
                self.assertTrue(is_gone, "no child is left")

    def signal_program(self, number: int, started: str) -> None:
        """A signal once the program has made a file. (A child that is left would keep a pipe of its
        output open, which would be waited for.)"""
        words = ("old.db", "new.db", "--state", "state")
        nowhere = subprocess.DEVNULL
        process = self.start(TOOL, *words, stdout=nowhere, stderr=nowhere)
        self.assertTrue(until(lambda: os.path.exists(started)), process.poll())
        os.remove(started)
        process.send_signal(number)
        try:
            process.wait(timeout=50)
        except subprocess.TimeoutExpired:
            process.kill()
        process.communicate()
        self.assertEqual(process.returncode, -number)
        self.assertEqual(self.leftovers(), [])
        self.assertEqual(self.read("state"), b"as before\n")
        self.assertEqual([name for name in os.listdir(self.root) if name[0] == "."], [])

    def test_secrecy(self) -> None:
        """Whatever the umask, the copies and the configuration have no name and can be opened by
        their owner only. A configuration is in memory."""
        self.write("conf", "report_url=stdout\n")
        away = self.put_away(self.program)
        look = f'find "{self.room}" -mindepth 1; stat -L -c %a-%h /proc/self/fd/[3-5]; '
        look += "readlink /proc/$$/fd/*;"
        body = f'case $1 in -E) {{ {look} }} > "{self.path("modes")}" ;; esac; exec "{away}" "$@"'
        self.stub("aide", body, "libexec/aide-compare")
        places = (self.room + "/#", "/memfd:")
        for mask in (0, 0o22, 0o77):
            answer = self.call(TOOL, "-c", "conf", "old.db", "new.db.gz", before=UMASK % mask)
            self.assertEqual(answer.status, 7, answer)
            lines = self.read("modes").decode().splitlines()
            self.assertEqual(lines[:3], ["600-0"] * 3, f"umask {mask:o}")
            private = {line for line in lines if line.startswith(places)}
            self.assertEqual(len(private), 3, lines)
            self.assertTrue(all(line.endswith(" (deleted)") for line in private), lines)


NAME = "hints é\n.db"
SHOWN = "the new database is hints é\\012.db".encode()


class HintsTest(CommandTest):
    def hinted(self, text: bytes, *errors: bytes) -> bytes:
        """A new database with this text is refused with these errors: first what the program says,
        then lines of the command. Returns them."""
        self.write(NAME, text)
        told = self.refused(24, [SHOWN, *errors], TOOL, "old.db", NAME).errors
        first, *others = told.splitlines()
        self.assertTrue(first.startswith(b"aide: "), told)
        self.assertTrue(all(line.startswith(b"aide-compare: ") for line in others), told)
        return told

    def test_lines(self) -> None:
        """The line is quoted."""
        fault = b"aide: new database:3: bad number in column 4\n"
        self.hinted(NEW.replace(b"644 5", b"644 5x"), fault, b"line 3: /a 36 100644 5x\n")
        told = b"line 3: /a 36 100644\\011 \\0115x\n"
        self.hinted(NEW.replace(b"644 5", b"644\t \t5x"), told)
        letters = "é".encode()
        told = b"line 3: /a 36 100644 " + letters * 187 + b"...\n"
        self.hinted(NEW.replace(b"644 5", b"644 " + letters * 900), told)
        order = (b"aide: new database:4: entry out of path order\n", b"line 4: /c")
        self.hinted(
            NEW.replace(b"/a ", b"/x "), *order, b"damaged: make it anew", b"aide-compare sort"
        )
        other = (b"line 1: root:x:0:0\n", b"not an AIDE database")
        self.hinted(b"root:x:0:0\n", b"no @@begin_db\n", *other)

    def test_whole_files(self) -> None:
        self.hinted(NEW[:-9], b"no @@end_db\n", b"ends too early")
        self.hinted(b"", b"no @@begin_db\n", b"it is empty: does AIDE run now?")
        other_ends = NEW.replace(b"\n", b"\r\n")
        self.hinted(other_ends, b"; its lines end in CR and LF: copy it byte by byte\n")

    def test_packed(self) -> None:
        """What does not begin as a database may be packed, and is not quoted then."""
        for text in (b"\xfd7zXZ\0" + NEW, gzip.compress(gzip.compress(NEW))):
            told = self.hinted(text)
            self.assertIn(SHOWN + b"; it is not an AIDE database, ", told.splitlines()[1])
            self.assertNotIn(b"line 1:", told)

    def test_configuration_hints(self) -> None:
        """The line is quoted, with the file that it is in, also if -A replaces it."""
        unknown = [b"config:2: unknown attribute\n", b"odd conf\n", b"line 2:  r"]
        for text, errors in (
            ("\n report_lvel=minimal", unknown),
            ("@@ifhost x", [b"config:1: left out of this profile\n", b"line 1: @@ifhost x\n"]),
            ("a\x1b[1m\x80", [b"line 1: a\\033[1m"]),
        ):
            self.write("odd conf", text)
            words = ("-A", "report_level=summary", "old.db", "new.db")
            self.refused(17, errors, TOOL, "-c", "odd conf", *words)
        told = [b"aide: after:2: bad value\n", b"the text of -A", b"line 2: report_level=x\n"]
        self.refused(17, told, TOOL, "old.db", "new.db", "-A", "\nreport_level=x")
