"""The state file, what status says of it, and the check for monitoring."""
from __future__ import annotations

import itertools
import json
import os
import re
import shutil
import time
import zlib
from typing import Any

from tests.lib import preload
from tests.lib.answer import Answer

from .forked import Forked
from .units.calls import misused
from .sandbox import AS_NOBODY, NOBODY, UMASK
from .states import NOTHING, StateTest
from .test_accept_attacks import FOR_GOOD, FOR_THE_CALL, moments

from aide_compare.lines.change import Counts

STATUS = "aide-compare status"
METRICS = STATUS + " --format prometheus"
# The names in the folder of the metrics: the last one is there for a moment.
NAMES = ("aide.prom", f".aide-compare-{zlib.crc32(b'aide.prom'):08x}")


class StatusTest(StateTest):
    def people(self, *words: str, **state: Any) -> list[str]:
        """What people get of a state: the lines of status."""
        self.put(**state)
        answer = self.ask(STATUS, *words)
        self.assertEqual((answer.status, answer.errors), (0, b""), answer)
        return str(answer.output.decode("utf-8", "replace")).splitlines()

    def test_metrics(self) -> None:
        self.put(status=5, added=1, changed=4)
        answer = self.ask(METRICS)
        lines = answer.output.decode().splitlines()
        self.assertEqual((answer.status, len(lines), answer.output[-1:]), (0, 15, b"\n"), answer)
        values = {}
        for help_line, type_line, line in zip(lines[::3], lines[1::3], lines[2::3]):
            name, value = line.split(" ")
            self.assertRegex(help_line, rf"^# HELP {name} [^\n\\]+$")
            self.assertEqual(type_line, f"# TYPE {name} gauge")
            values[name] = int(value)
        self.assertLess(abs(values.pop("aide_compare_end_time_seconds") - time.time() + 60), 5)
        counts = {"status": 5, "added_entries": 1, "removed_entries": 0, "changed_entries": 4}
        self.assertEqual(values, {"aide_compare_" + name: counts[name] for name in counts})
        to_file = self.ask(METRICS, "aide.prom", before=UMASK % 0o77)
        self.expect("metrics to a file", to_file, 0, b"", b"")
        self.assertEqual(self.read("aide.prom"), answer.output)
        self.assertEqual(os.stat(self.path("aide.prom")).st_mode & 0o777, 0o644)
        self.assertFalse([name for name in os.listdir(self.root) if name[0] == "."])

    def test_metrics_faults(self) -> None:
        """Without a comparison there are no counts; and a failure leaves the metrics as before."""
        self.put(status=18, **NOTHING)
        self.ask(METRICS, "aide.prom")
        text = self.read("aide.prom")
        self.assertIn(b"\naide_compare_status 18\n", text)
        self.assertNotIn(b"entries", text)
        self.write("state", "x")
        answer = self.ask(METRICS, "aide.prom")
        self.expect("metrics of a bad state", answer, 18, b"", b"no state file")
        self.assertEqual(self.read("aide.prom"), text, "the metrics are as before")
        self.put()
        for path, said in (
            ("old.db/x.prom", b"cannot write"),
            ("no/such/directory/x.prom", b"No such file or directory"),
        ):
            self.expect(f"metrics to {path}", self.ask(METRICS, path), 18, b"", said)
        self.assertFalse(os.path.exists(self.path("no")), "no directory is made")
        with open("/dev/full", "wb") as full:
            for tool in (METRICS, STATUS + " --format json"):
                self.expect("a full device", self.ask(tool, stdout=full), 18)

    def test_arguments(self) -> None:
        odd = ["--format", "prometheus", "a", "b"], ["--format", "json", "x"], ["--critical", "5x"]
        ignored = ["--format", "json", "--max-age", "2h"], ["--format", "prometheus", "--quiet"]
        same = ["--format", "prometheus", "--state", "state", "./state"]
        for words in (*odd, *ignored, same, ["--max-age", "31d"], ["--state", ""]):
            self.assertEqual(misused(self, STATUS, *words)[0], 15, words)

    def test_people(self) -> None:
        """A short text for people: when, what was found, and the commands that follow from it."""
        lines = self.people()
        self.assertRegex(lines[0], r"^Last comparison: 20.*UTC, 6[0-9] seconds ago$")
        self.assertEqual((lines[1], len(lines)), ("No difference.", 4), lines)
        lines = self.people(status=5, added=1, changed=4, old="/s t/o")
        self.assertEqual(lines[1:3], ["1 added, 0 removed, 4 changed.", "Old database: /s t/o"])
        commands = [
            "What differs:   aide-compare '/s t/o' /n",
            "If it is right: aide-compare accept /n '/s t/o'",
        ]
        self.assertEqual(lines[-2:], commands, "what to do then")
        for name in ("-", "/dev/fd/3", "of-another-directory.db"):
            lines = self.people(status=5, added=1, changed=4, old=name)
            self.assertTrue(lines[-1].startswith("New database"), f"no command for {name}")
        lines = self.people(status=24, error="aide: x\x01y", **NOTHING)
        self.assertIn("status 24", lines[1])
        self.assertEqual(lines[2:], ["  aide: x\\001y"])
        old = self.people(age=93700)[0]
        self.assertIn("there should have been one in the last 26 hours", old)
        self.assertIn("which is in the future", self.people(age=-4000)[0])
        late = {"new_written": int(time.time()) - 105000}
        self.assertEqual(
            self.people(**late)[1], "No difference; the new database was 29 hours old."
        )
        self.assertEqual(len(self.people("-q", **late)), 4, "a missed night with -q")
        silent = {"status": 4, "changed": 3, **Counts(same=1, left_out=2)._asdict()}
        self.assertEqual(self.people("-q") + self.people("-q", **silent), [], "nothing with -q")
        self.assertEqual(len(self.people("-q", age=93700)), 4, "an old one with -q")

    def test_forms(self) -> None:
        """Each form says if there is no state, and the numbers of JSON are numbers."""
        for form in ("text", "json", "prometheus"):
            self.answered(18, None, b"none", STATUS, "--format", form, "--state", "none")
        self.call("aide-compare", "--exclude", "/b", "--state", "state", "old.db", "new.db")
        text = b"3 open of 4 changes"
        self.answered(0, text, b"", STATUS, "--format=json", "--format", "text", "--state", "state")
        found = json.loads(self.ask(STATUS, "--format", "json").output)
        self.assertEqual(found, json.loads(self.read("state")))
        numbers = {name for name, value in found.items() if type(value) is int}
        self.assertLessEqual({"added", "time", "status", "left_out"}, numbers)

    def test_failed_start(self) -> None:
        """A run that cannot begin leaves a state that says so; a wrong command changes nothing."""
        tools = "aide-compare", "aide-compare mail --queue queue"
        for tool in tools:
            for name, text, status in (("defaults", "--odd\n", 15), ("without", "no path\n", 17)):
                self.put()
                self.write("etc/" + name, text)
                answer = self.ask(tool, "old.db", "new.db")
                state = self.state()
                self.assertEqual((state["status"], answer.status), (str(status), status), answer)
                self.assertIn("line 1", state["error"])
                os.remove(self.path("etc/" + name))
        before = self.read("state")
        self.ask("aide-compare", "--odd", "old.db", "new.db")
        self.assertEqual(self.read("state"), before, "a wrong command changes no state")
        self.write("etc/defaults", "--databases old.db new.db\n--state state\n")
        self.ask("aide-compare mail --queue queue", "--exclude-from", "none")
        self.assertEqual(self.state()["status"], "18", "a state that the defaults name")
        self.write("etc/defaults", "--odd\n--databases old.db new.db\n--trusted a\n--state state\n")
        named: list[list[str]] = [[], ["./old.db", "./new.db"]]
        for tool, names in itertools.product(tools, named):
            self.put()
            before = self.read("state")
            self.expect(f"{tool} {names}", self.call(tool, *names), 15)
            if tool == "aide-compare":
                self.assertEqual(self.read("state"), before, "by hand it is the daily job's")
            else:
                self.assertIn("line 1", self.state()["error"], "another line has a fault")
        self.write("etc/defaults", "--databases old.db gone.db\n--state state\n")
        self.call("aide-compare mail --queue queue", "./old.db", "./gone.db")
        self.assertIn("the new database", self.state()["error"], "they name both")
        os.mkfifo(self.path("pipe"))
        self.refused(18, b"cannot write", "aide-compare", "old.db", "new.db", "--state=pipe")
        self.assertTrue(os.path.exists(self.path("pipe")), "what is no state stays")

    def test_unreadable(self) -> None:
        """After a failure a state that the user who compares cannot read is replaced too."""
        self.needs_root()
        self.put()
        os.mkdir(self.path("his"))
        os.chmod(shutil.copy(self.path("state"), self.path("his")), 0o600)
        os.chown(self.path("his"), NOBODY, NOBODY)
        self.refused(
            18, None, "aide-compare", "--exclude-from=no", "old.db", "new.db", "--state=his/state"
        )
        self.assertEqual(self.state("his/state")["status"], "18", "he could not read it")

    def linked(self, command: Forked, name: str, **at: int) -> Answer:
        """What writing the metrics answers when another user, in his folder, puts a link to a file
        of root in the place of a name at a call. The file stays as it is."""
        prey = self.write("prey", "of root\n", 0o600)
        shutil.rmtree(self.path("exporter"), ignore_errors=True)
        own = self.write("exporter/aide.prom", "former\n")
        os.symlink(prey, self.path("exporter/link"))
        for path in (own, self.path("exporter")):
            os.chown(path, NOBODY, NOBODY)
        names = {"AT_ONE": self.path("exporter", name), "AT_OTHER": self.path("exporter/link")}
        done = command.call("--state", "state", "exporter/aide.prom", **names, **at)
        found = os.stat(prey)
        kept = (self.read("prey"), found.st_mode & 0o777, found.st_uid)
        self.assertEqual(kept, (b"of root\n", 0o600, 0), (name, at))
        return done

    def test_links(self) -> None:
        """The owner of the folder of the metrics puts links in the place of names at each call."""
        self.needs_root()
        self.put()
        command = Forked(self, METRICS, LD_PRELOAD=preload.built("at_call.c", self.path("stubs")))
        calls = self.linked(command, NAMES[0], AT_NOTES=2).error_text.split()
        self.assertIn("renameat", calls)
        statuses = {
            self.linked(command, name, AT_NUMBER=number, AT_WAY=way).status
            for name in NAMES
            for number, way in moments(calls, (FOR_THE_CALL, FOR_GOOD))
        }
        self.assertEqual(statuses, {0, 18})
        self.linked(command, NAMES[0])
        found = os.stat(self.path("exporter/aide.prom"))
        self.assertEqual((found.st_uid, found.st_mode & 0o777), (NOBODY, 0o644))


CHECK = "check_aide_compare"
WORDS = ("OK", "WARNING", "CRITICAL", "UNKNOWN")
NUMBERS = re.compile(r"([a-z_]+=(\d+|U) )*(age=\d+s)?")


class CheckTest(StateTest):
    def check(self, label: str, status: int, *parts: str, words: Any = (), **more: Any) -> None:
        """The check answers with one line of one bar at most, and with these parts."""
        answer = self.ask(CHECK, *words, **more)
        line = answer.output.decode("utf-8", "replace")
        self.assertEqual((answer.status, answer.errors), (status, b""), (label, answer))
        self.assertTrue(line.startswith(f"AIDE {WORDS[status]}: "), (label, line))
        self.assertEqual((line.count("\n"), line[-1:]), (1, "\n"), (label, line))
        text, _, numbers = line[:-1].partition("|")
        self.assertTrue(NUMBERS.fullmatch(numbers) and len(line) < 500, (label, line))
        for part in parts:
            self.assertIn(part, line, label)

    def test_check(self) -> None:
        for status, added, removed, changed, want in (
            (0, 0, 0, 0, 0),
            (1, 5, 0, 0, 2),
            (7, 12, 34, 56, 2),
        ):
            self.put(status=status, added=added, removed=removed, changed=changed)
            numbers = f"|added={added} removed={removed} changed={changed} age=6"
            text = f": {added} added, {removed} removed, {changed} changed|" if status else ": no "
            self.check(f"the status {status}", want, numbers, text)
        for hours, text in ((26, "no difference|"), (31, "; the new database was 30 hours old|")):
            self.put(new_written=int(time.time()) - hours * 3600)
            self.check("a night that AIDE has missed", 0, text)
        self.put(age=-20)
        self.check("a clock that is a little behind", 0, "age=0s")
        self.call("aide-compare", "old.db", "new.db", "--state", "state")
        numbers = "|added=1 removed=1 changed=2 open=4 "
        self.check("a real state", 1, ": 1 added, 1 removed, 2 changed" + numbers)

    def test_check_faults(self) -> None:
        self.put(status=24, error="a|b=1;2\x01\x1b[0m|" + "é" * 4000, **NOTHING)
        said = "failure, status 24: a!b=1;2\\001\\033[0m!"
        self.check("an error", 3, said, "|age=6")
        self.put(status=5, **NOTHING)
        self.check("a state without counts", 3, "is no state file")
        self.put(age=93700)
        self.check("an old state", 3, "older than 26 hours", "age=937")
        self.check("an old state that may be", 0, "no difference", words=["--max-age", "27h"])
        self.check("one that may not be", 3, "older than 10 seconds", words=["--max-age=10"])
        self.check("one of any age", 0, "no difference", words=["--max-age", "0"])
        self.answered(0, b"", b"", "aide-compare status", "--state=state", "--max-age=0", "-q")
        self.put(age=-4000)
        self.check("a state from the future", 3, "in the future")
        self.check("an odd argument", 3, words=["--odd|\n"])

    def test_check_files(self) -> None:
        """What is no state file is UNKNOWN."""
        state = self.put()
        whole = self.read("state").decode()
        for label, text in (
            ("half", whole[:40]),
            ("deep", "[" * 60000),
            ("a list", "[]"),
        ):
            self.assertNotEqual(text, whole, label)
            self.write("state", text)
            self.check("a state that is " + label, 3, "is no state file")
        self.write("state", whole + "x" * 70000)
        self.check("a large state", 3, "has more than 65536 bytes")
        os.remove(state)
        self.check("no state", 3, "there is no state")
        os.makedirs(state)
        self.check("a folder", 3, "it is a directory")
        os.rmdir(state)
        os.mkfifo(state)
        self.check("a FIFO", 3, "it is a FIFO")

    def test_own_failures(self) -> None:
        """What the check itself cannot do is UNKNOWN, since 1 and 2 say what was found."""
        self.put()
        self.patch("show.check.read_state", None)
        self.check("a mistake of its own", 3, "a fault of this command: TypeError")
        self.patches.clear()
        few = "resource.setrlimit(resource.RLIMIT_NOFILE, (4, 4))"
        self.assertEqual(self.ask(CHECK, before=few).status, 3, "few descriptors")
        none = "resource.setrlimit(resource.RLIMIT_NPROC, (0, 0))"
        if os.geteuid() == 0:  # This limit is none for root.
            none = f"{AS_NOBODY}; {none}"
            os.mkdir(self.path("secret"), 0o700)
            for words in (["--state=secret/state"], ["--state=secret/state", "--format=text"]):
                self.check("out of sight", 3, "Permission denied", words=words, before=AS_NOBODY)
        self.assertEqual(self.ask(CHECK, before=none).status, 0, "it needs no process")
        with open("/dev/full", "wb") as full:
            self.assertEqual(self.ask(CHECK, stdout=full).status, 3, "a full device")
        for name, text in (
            ("show/check", "import a_missing_module"),
            ("commands/status", "raise MemoryError"),
            ("compare/state", "raise KeyError"),
        ):
            module = f"lib/aide_compare/{name}.py"
            kept = self.read(module)
            self.write(module, text)
            answer = self.ask(CHECK)
            self.write(module, kept)
            self.assertEqual(answer.status, 3, (name, text, answer))
            self.assertIn(b"UNKNOWN", answer.output)
