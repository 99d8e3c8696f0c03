"""The recipes of docs/HOSTS.md: a new host, and many, some of which lie, fail or are silent."""
from __future__ import annotations

import gzip
import json
import os
import re
import subprocess

from tests.lib.answer import Answer
from tests.lib.terminal import Terminal
from tests.pages.machine import HOSTS, STORE
from tests.pages.recipes import NEW, OLD, RecipesTest

# What each host sends, ends with, and what its line says.
SENT: dict[str, tuple[str | bytes, int, str]] = {
    "same": (OLD, 0, "no differences"),
    "other": (NEW, 7, "1 added, 1 removed, 1 changed"),
    "zipped": (gzip.compress(OLD.encode()), 0, "no differences"),
    "user@other.example-1": (NEW, 7, "1 added, 1 removed, 1 changed"),
    "forged": ("x\n", 24, "no @@begin_db"),
    "cut": (gzip.compress(os.urandom(2000) + NEW.encode())[:-100], 18, "cut short|damaged"),
    "down": (OLD, 18, "No route to host"),
    "loud": (OLD, 18, "sent errors of more than 65536 bytes"),
    "silent": (OLD, 18, "sent nothing"),
    "broken": (OLD, 18, "(ssh: status 255)"),
    "first": (OLD, 18, "no baseline yet"),
}
REFUSED = ("a b", "é", "-x", "a/b", "a..b", "..", "$(touch x)")


class HostsTest(RecipesTest):
    def test_add(self) -> None:
        """A new host as on the page: what is shown, no, and yes."""
        self.put_host("www", OLD, None)
        self.write(HOSTS, "")
        done = self.on_terminal("no\n")
        self.assertEqual(done.status, 24, done)
        self.assertFalse(os.path.exists(self.path(STORE, "hosts/www/aide.db")))
        self.prints("add host", done.output_text)
        self.assertEqual(self.on_terminal("yes\n").status, 0)
        self.assertEqual(self.text_at(HOSTS), "www\n")
        self.assertEqual(self.text_at(STORE + "/hosts/www/aide.db"), OLD)

    def on_terminal(self, answer: str) -> Answer:
        """What the recipe answers on a terminal, on which its question gets an answer."""
        words = ["sh", "-c", self.below(self.text("add host"))]
        terminal = Terminal(words, cwd=self.path("/tmp"), env=self.environment())
        status, shown = terminal.answered(b"yes or no: ", answer.encode())
        return Answer(self.above(shown.decode()).encode(), b"", status)

    def put_hosts(self) -> int:
        for name, (text, _, _) in SENT.items():
            self.put_host(name, text, None if name == "first" else OLD)
        self.write(HOSTS, "# the hosts\n\n" + "".join(f"{name}\n" for name in (*SENT, *REFUSED)))
        return len(SENT) + len(REFUSED)

    def test_all_hosts(self) -> None:
        """A line for each host; no host that was not compared counts as quiet."""
        count = self.put_hosts()
        done = self.recipe("hosts")
        self.assertEqual(done.status, 24, done)
        *lines, summary = done.output_text.splitlines()
        told = {line.split(" ", 2)[0]: line.split(" ", 2)[1:] for line in lines}
        self.assertEqual(set(told), {name.replace(" ", "\\040") for name in (*SENT, *REFUSED)})
        for name, (_, wanted, text) in SENT.items():
            self.assertEqual(told[name][0], str(wanted), told[name])
            self.assertRegex(told[name][1], text)
            state = json.loads(self.text_at(f"{STORE}/states/{name}"))
            self.assertEqual(state["status"], wanted)
            if wanted > 7:
                self.assertRegex(state["error"], text)
        for name in REFUSED:
            self.assertEqual(told[name.replace(" ", "\\040")][0], "15")
        self.assertEqual(
            summary, f"{count} hosts: 2 differ, {count - 4} not compared, 2 without differences"
        )
        self.assertEqual(self.text_at(STORE + "/hosts/other/aide.db"), OLD)
        self.assertFalse(os.path.exists(self.path(STORE, "hosts/x")))
        self.report(count)

    def report(self, count: int) -> None:
        """What differs on all hosts at once: each change once, and one mail."""
        done = self.recipe("report hosts")
        output = done.output_text
        head = f"aide on {count} hosts: 2 differ, {count - 4} not compared"
        self.assertEqual(done.status, 24)
        self.assertTrue(output.startswith(head + ", 2 without differences\n"), output)
        both = f"on 2 of {count} hosts: other, user@other.example-1\n"
        for text in (
            f"{both}added File: /a é\n",
            f"{both}changed File: /c\n",
            "\n  forged: ",
            '\n  down: "ssh: connect to host down port 22: No route to host"',
            "\n  a b: the name of a host",
        ):
            self.assertIn(text, output)
        self.assertEqual(self.recipe("mail hosts").status, 24)
        mail = self.taken("mailed") or ""
        self.assertIn(f"\nSubject: {head}\n", mail)
        self.assertRegex(mail, r"(?m)^  (?:other \+1)? +added +/a é: -rw-r--r-- 5 bytes$")

    def test_at_once(self) -> None:
        """Three runs over the same hosts at once: each has its lines; the databases are whole."""
        self.put_hosts()
        self.write("/tmp/three", "same\nother\nzipped\n")
        words = ["aide-compare", "hosts", "compare", "--jobs", "3", self.path("/tmp/three")]
        environment = self.environment()
        runs = [subprocess.Popen(words, env=environment, stdout=subprocess.PIPE) for _ in range(3)]
        for run in runs:
            lines = run.communicate()[0].decode().splitlines()[:-1]
            statuses = dict(line.split(" ")[:2] for line in lines)
            self.assertEqual(run.returncode, 7)
            self.assertEqual(statuses, {"same": "0", "other": "7", "zipped": "0"})
        self.assertEqual(self.text_at(STORE + "/hosts/other/aide.db.new"), NEW)

    def test_keys(self) -> None:
        """The forced command sends what is asked for: the new database, not the baseline."""
        command = "cat /var/lib/aide/aide.db.new"
        lines = self.above(self.example("fleet/authorized_keys")).splitlines()
        line = [line for line in lines if not line.startswith("#")]
        self.assertEqual(len(line), 1)
        self.assertTrue(line[0].startswith("restrict,from="))
        self.assertIn(f'command="{command}"', line[0])
        self.assertIn(command, self.above(self.example("fleet/playbook.yaml")))

    def test_playbook(self) -> None:
        """If a watched host fails, no play writes the collecting host's files, which name it. AIDE has
        its rules before the first database."""
        plays = self.above(self.example("fleet/playbook.yaml")).split("\n- name: ")
        (watched,) = [play for play in plays if "\n  hosts: watched\n" in play]
        self.assertIn("\n  any_errors_fatal: true\n", watched)
        self.assertRegex(watched, r"(?s)/31_aide_aide-compare\n.*\n        cmd: aideinit ")
        self.assertEqual(plays[-1].count("        force: false\n"), 2, "edited files stay")

    def test_jobs(self) -> None:
        """The line of cron and the service of the timer run the same commands."""
        line = self.example("fleet/aide-compare-fleet").splitlines()[-1]
        service = self.example("fleet/aide-compare-fleet.service")
        commands = [
            re.findall(r"/bin/aide-compare (hosts [\w -]+\b)", text) for text in (line, service)
        ]
        self.assertEqual(commands[0], commands[1])
        self.assertEqual(len(commands[0]), 2)
        self.assertIn(" --max-age 6h ", commands[0][1], "of a run that a fault has stopped, too")
