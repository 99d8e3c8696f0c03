"""aide-compare itself: which subcommand an argument means, and what the program gets untouched."""
from __future__ import annotations

import os
import re

from .units.calls import helped
from .sandbox import CommandTest, DIFFER, NEW, OLD, sha256

TOOL = "aide-compare"
SUBCOMMANDS = "compare show json page mail accept archive status sort setup version".split()
HOSTS = "add list remove compare accept report".split()
EVERY = SUBCOMMANDS + ["hosts " + word for word in HOSTS]
QUIET = b"\n  -q, --quiet "
VERBOSE = b"\n  -v, --verbose "
# What has nothing to leave out, and what can name the lines of a list.
NEVER_QUIET = ("mail", "version", "hosts list")
COMPARISONS = ("compare", "show", "json", "page")
UNKNOWN_BUILD = b"a proved build: not known: "
# A program in place of the proved one: it tells its arguments, and which signals it ignores.
TELLS = 'printf "%s\\n" "$@"; grep SigIgn /proc/self/status; exit 5'
SIGPIPE = 1 << 12


class FrontTest(CommandTest):
    def test_words(self) -> None:
        """compare may be left out. A database with the name of a subcommand needs its folder."""
        whole = self.answered(
            7, b"4 open of 4 changes\n", DIFFER, TOOL, "compare", "old.db", "new.db"
        )
        short = self.answered(7, None, DIFFER, TOOL, "--state", "state", "old.db", "new.db")
        self.assertEqual(short.output, whole.output)
        for name in ("sort", "jsn"):
            self.write(name, NEW)
        same = b"no differences in 3 entries\n"
        equal = [b"both databases are equal"]
        self.answered(0, same, equal, TOOL, "./sort", "new.db")
        self.answered(0, OLD, None, TOOL, "sort", "old.db")
        self.answered(0, same, equal, TOOL, "jsn", "new.db")
        self.refused(18, b"cannot open the old database", TOOL, "stat.db", "new.db")
        compare = (TOOL, "hosts", "compare", "--store", self.path("store"), "--no-fetch")
        told = b"nohost 18 nothing was fetched yet"
        self.answered(18, told, b"", *compare, "-", text=b"nohost\n")
        self.refused(18, b"no host is in ./x: aide-compare hosts add adds one", *compare, "./x")
        one = b"there is no file www, and no host of this name is watched\naide-compare hosts compare: "
        self.refused(18, one, *compare, "www")

    def test_help(self) -> None:
        """The help fits one screen, and has each subcommand; the help of that has the words."""
        names = [b"  %s " % word.encode() for word in SUBCOMMANDS + ["hosts"]]
        text = self.answered(0, names, b"", TOOL, "--help").output
        lines = text.decode().splitlines()
        self.assertLessEqual(len(lines), 24)
        self.assertLessEqual(max(map(len, lines)), 80)
        for words in (["-h"], ["help"], ["help", "--help"]):
            self.answered(0, text, b"", TOOL, *words)
        for word in EVERY:
            usage = b"[compare] " if word == "compare" else word.encode() + b" "
            printed = helped(*word.split(), "--help")
            for part in (b"usage: aide-compare " + usage, b"\n\nStatus"):
                self.assertIn(part, printed, word)
            self.assertIn(b" [OPTIONS]", printed.splitlines()[0])
            self.assertEqual(QUIET in printed, word not in NEVER_QUIET, word)
            self.assertEqual(VERBOSE in printed, word in COMPARISONS, word)
            self.assertNotIn(b"--version", printed, word)
            self.assertLessEqual(max(map(len, printed.decode().splitlines())), 80, word)
        for words in (["sort"], ["hosts", "add"]):
            self.answered(0, helped(*words, "--help"), b"", TOOL, "help", *words)
        for words in (["hosts"], ["hosts", "-h"], ["help", "hosts"]):
            wanted = [b" hosts %s " % word.encode() for word in HOSTS]
            given = self.answered(0, wanted, b"", TOOL, *words)
            self.assertLessEqual(max(map(len, given.output_text.splitlines())), 80, words)

    def test_misspelt(self) -> None:
        """What is no subcommand, or no option, ends with 15; nothing is compared."""
        for words, near in (
            ("jsno", b"there is no subcommand and no file jsno\naide-compare: did you mean: "),
            ("comapre old.db new.db", b"did you mean: aide-compare compare\n"),
            ("stauts --max-age=1h", b"did you mean: aide-compare status\n"),
            ("report old.db new.db", b"no file report\naide-compare: to compare: aide-compare OLD"),
            ("check", b"to compare: aide-compare OLD NEW, or without names"),
            ("init", b"AIDE makes databases: aide --init; "),
            ("--check", b"--check is a job of aide(1)\naide-compare: to compare: "),
            ("-u", b"-u is a job of aide(1)\naide-compare: AIDE makes databases: aide --update"),
            ("-c x --init", b"--init is a job of aide(1)\n"),
            ("old.db", b"name both databases, OLD and NEW, or none, and not only old.db\n"),
            (
                "hosts accept www",
                b"this prints: aide-compare hosts report www; on a terminal it asks\n",
            ),
            ("hosts accept", b"name a HOST, or give --silent for all whose changes are silent\n"),
            ("help bogus", b"there are: compare, show, json, page, mail, "),
            ("help compar", b"did you mean: compare\n"),
            ("hosts fecth www", b"try: aide-compare hosts --help\n"),
            ("hosts accpt www", b"did you mean: accept\n"),
            ("mail --exlude-from=x", b"--exlude-from=x; did you mean --exclude-from\n"),
            ("diff old.db new.db", b"there is no subcommand and no file diff\n"),
            ("old.db new.db new.db", b"more than two databases: new.db\n"),
            ("--json old.db new.db", b"not only new.db; old.db is where an output goes (- prints"),
            (
                "--exclude /a /b old.db new.db",
                b"new.db; each pattern needs an --exclude of its own",
            ),
            (
                "--reprot old.db new.db",
                b"unrecognized arguments: --reprot; did you mean --report\n",
            ),
            ("a\033[31m", b"no file a\\033[31m\n"),
            ("mail a", b"try: aide-compare mail --help\n"),
            ("-A \udcff old.db new.db", b"-A/--after: needs a text in UTF-8: \\377\n"),
            ("page --other", b"try: aide-compare page --help\n"),
        ):
            answer = self.refused(15, near, TOOL, *words.split(" "))
            self.assertNotIn(b"\033", answer.errors, words)

    def test_program(self) -> None:
        """AIDE's own options go to the program as they are, with its statuses, and no Python."""
        lines = "database_in=file:%s\ndatabase_new=file:%s"
        lines %= (self.path("old.db"), self.path("new.db"))
        self.answered(7, b"AIDE found differences", b"", TOOL, "-E", "-c", "/dev/null", "-A", lines)
        self.refused(15, b"aide: usage: ", TOOL, "-D", "--nonsense")
        self.refused(15, b"aide-compare sort: ", TOOL, "sort", "-E")
        self.stub("aide", TELLS, "libexec/aide-compare")
        for words in (
            ["-E"],
            ["-c", "a b", "-D"],
            ["--config=x", "--compare", "--", "json"],
            ["-A", "\xe9\n", "--config-check"],
        ):
            told = "".join("%s\n" % word for word in words).encode()
            output = self.answered(5, told + b"SigIgn:", b"", TOOL, *words).output
            self.assertTrue(output.startswith(told), output)
            self.assertFalse(int(output.rpartition(b":")[2], 16) & SIGPIPE, "no signal is ignored")
        os.remove(self.program)
        self.refused(18, b"cannot find " + self.program.encode(), TOOL, "-E")

    def test_builds(self) -> None:
        """The build for newer processors runs where the system says that the processor is one."""
        told, program = self.path("cpuinfo"), self.path("libexec/aide-compare/aide-v3")
        self.set_names("base.program", CPUINFO=told)
        self.stub("aide-v3", "echo newer; exit 5", "libexec/aide-compare")
        runs = (TOOL, "-D", "-c", "/dev/null")
        self.answered(0, b"", b"", *runs)
        flags = "flags\t\t: fpu abm avx avx2 bmi1 bmi2 f16c fma movbe xsave sse4_2\n"
        for name, text, is_newer in (
            ("all that is needed", "processor\t: 0\n" + flags + "processor\t: 1\n", True),
            ("no AVX2", flags.replace(" avx2", ""), False),
            ("a part of a name", flags.replace(" bmi2", " bmi22"), False),
            ("another line", flags.replace("flags", "bugs"), False),
            ("much before it", "bugs\t\t: none\n" * 1000 + flags, False),
            ("nothing", "", False),
        ):
            self.write("cpuinfo", text)
            answer = self.call(*runs)
            wanted = (5, b"newer\n") if is_newer else (0, b"")
            self.assertEqual((answer.status, answer.output), wanted, name)
            if name in ("all that is needed", "no AVX2"):
                output = self.call(TOOL, "version").output.decode()
                answers = re.findall("(?m)^run on this machine: (.*)", output)
                self.assertEqual(answers, ["no", "yes"] if is_newer else ["yes", "no"], name)
        self.write("cpuinfo", flags)
        os.chmod(program, 0o644)
        self.answered(0, b"", b"", *runs)

    def test_version(self) -> None:
        """The programs that are run, and what the record of each says, if it is of this program."""
        programs = {name: sha256(self.read(name)) for name in (self.program, self.lines_program)}
        other = sha256(b"x")
        unknown = UNKNOWN_BUILD + b"there is no record of how it was built\n"
        for record, last in (
            ("", b"kit: not known\n" + unknown),
            ("sha256={0}\nkit=k 1\nproved=yes\n", b"kit: k 1\na proved build: yes\n"),
            (
                f"sha256={other}\nkit=k\nproved=yes\n",
                UNKNOWN_BUILD + b"it is not the program that was installed\n",
            ),
            ("sha256={0}\nkit=\033\nproved=\033[2J\n", b"kit: \\033\na proved build: \\033[2J\n"),
        ):
            for program, digest in programs.items():
                if record:
                    self.write(program + ".build", record.format(digest))
            output = self.answered(0, b"aide-compare ", b"", TOOL, "version").output
            _, *parts = re.split(rb"(?m)^program(?: of lines)?: ", output)
            self.assertEqual(len(parts), 2, output)
            for part, (program, digest) in zip(parts, programs.items()):
                self.assertTrue(part.startswith(f"{program}\nSHA-256: {digest}\n".encode()), part)
                self.assertIn(last, part, record)
        self.answered(0, output, b"", TOOL, "--version")
        with open("/dev/full", "wb") as full:
            told = b"cannot write standard output: No space left"
            for words in (["version"], ["help"], ["json", "--help"]):
                self.answered(18, None, told, TOOL, *words, stdout=full)
        for word in ("json", "show", "hosts add"):
            self.refused(15, None, f"{TOOL} {word}", "--version")
        version = output.splitlines(True)[0]
        self.answered(3, version, b"", "check_aide_compare", "--version")
        self.refused(15, b"aide-compare version: ", TOOL, "version", "x")
        os.remove(self.lines_program)
        told = b"cannot find " + self.lines_program.encode()
        self.answered(18, None, told, TOOL, "version")
