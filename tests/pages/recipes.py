"""The recipes of the pages, run as they stand on a machine below a directory."""
from __future__ import annotations

import hashlib
import json
import os

from tests.lib.answer import Answer
from tests.pages.blocks import RECIPES, Block, blocks_of
from tests.pages.machine import BASELINE, HEAD, HOSTS, NEWEST, NOBODY, STATE, MachineTest, example

# What is added, removed and changed between the databases of examples/small_tree.
STORED = (3, 4, 15)
# What the units need, and the part of Debian's /etc/aide/aide.conf that matters here.
DEFAULTS = f"--databases {BASELINE} {NEWEST}\n--max-age 50h\n--state {STATE}\n"
CONFIGURATION = f"""\
@@x_include_setenv UPAC_settingsd /etc/aide/aide.settings.d
@@x_include_setenv PATH /bin:/usr/bin
database_in=file:{BASELINE}
database_out=file:{NEWEST}
database_new=file:{NEWEST}
gzip_dbout=yes
Checksums = H
database_attrs = Checksums
@@x_include /etc/aide/aide.conf.d ^[a-zA-Z0-9_-]+$
"""
CHECK = "/usr/local/lib/nagios/plugins/check_aide_compare"
METRICS = "/var/lib/prometheus/node-exporter/aide-compare.prom"
OLD = HEAD + "/b 36 40755 4096\n/c 36 100644 10\n@@end_db\n"
NEW = HEAD + "/a%20%C3%A9 36 100644 5\n/c 36 100600 7\n@@end_db\n"
# A night in which only logs, a cache and AIDE's own database have changed, and an intruder's.
LOGS = ["/var/log/auth.log", "/var/log/kern.log", "/var/log/syslog"]
PLAIN = [
    "/etc/passwd",
    "/var/cache/man/da/index.db",
    "/var/cache/man/de/index.db",
    "/var/lib/aide/aide.db",
]
BEFORE = dict.fromkeys(PLAIN + LOGS, 1)
NIGHT = {
    "/etc/passwd": 1,
    "/var/lib/aide/aide.db": 2,
    "/var/log/syslog.1": 1,
    **dict.fromkeys(LOGS, 2),
}
INTRUDER = {**NIGHT, "/etc/passwd": 2, "/etc/ld.so.preload": 1}


def recipes() -> dict[str, Block]:
    """The blocks of the pages with recipes, by their marks."""
    return {block.marks[-1]: block for page in RECIPES for block in blocks_of(page)}


def of_sizes(sizes: dict[str, int]) -> str:
    lines = [f"{path} 36 100644 {size}\n" for path, size in sizes.items()]
    return HEAD + "".join(sorted(lines)) + "@@end_db\n"


class RecipesTest(MachineTest):
    """A machine with Debian's configuration, and the blocks of the pages."""

    def setUp(self) -> None:
        super().setUp()
        self.recipes = recipes()
        self.write("/etc/aide/aide.conf", self.below(CONFIGURATION))
        self.write("/etc/aide-compare/defaults", self.below(DEFAULTS))
        self.write("/etc/cron.daily/zz-aide-compare", self.example("cron/aide-compare.cron.daily"))
        os.chmod(self.path("/etc/cron.daily/zz-aide-compare"), 0o755)

    def example(self, name: str) -> str:
        return self.text_at("/usr/local/share/doc/aide-compare/examples/" + name)

    def text(self, name: str) -> str:
        return self.recipes["try: " + name].text

    def recipe(self, name: str, rights: int | None = None) -> Answer:
        return self.shell(self.text(name), rights)

    def prints(self, name: str, output: str) -> None:
        """What was printed begins as the page shows."""
        shown = self.recipes["prints: " + name].text.rstrip("\n")
        self.assertEqual(output[: len(shown)], shown)

    def put_files(self, old: str | bytes, new: str | bytes) -> None:
        """The two databases that a recipe names by hand."""
        self.put_databases(old, new, "/tmp/old.db.gz", "/tmp/new.db.gz")

    def put_night(self, sizes: dict[str, int]) -> None:
        """The databases of a night. The lines of debian.without name what lies below the root."""
        texts = [
            of_sizes({self.below(path): size for path, size in each.items()})
            for each in (BEFORE, sizes)
        ]
        self.put_pair(*texts)

    def jobs(self) -> list[tuple[str, list[str]]]:
        """What starts a comparison each day: the units, and the job of cron."""
        return [
            ("timer", self.unit_commands()),
            ("cron", [self.path("/etc/cron.daily/zz-aide-compare")]),
        ]

    def state(self) -> dict[str, str]:
        return {key: str(value) for key, value in json.loads(self.text_at(STATE)).items()}

    def put_host(self, name: str, text: str | bytes, baseline: str | None) -> None:
        self.write(f"/remote/{name}/aide.db.new", text)
        if baseline is not None:
            self.write(f"/var/lib/aide-compare/hosts/{name}/aide.db", baseline, 0o600)

    def set_up(self) -> Answer:
        """The first recipe, on a machine whose baseline is put back by aideinit."""
        self.needs_root()
        made = self.path(BASELINE)
        os.rename(made, made + ".made")
        self.write("/usr/local/sbin/aideinit", f'#!/bin/sh\nmv "{made}.made" "{made}"\n', 0o755)
        self.write("/etc/aide-compare/without", "")  # The package brings this file.
        done = self.recipe("first")
        self.assertEqual((done.status, done.errors), (0, b""), done)
        said = done.output.replace(b"of the user root: ", b"of the user _aide: ")
        return done._replace(output=said)


class Day:
    """One day of a host: every way of asking says what the counts do; None is a quiet day."""

    def __init__(self, test: RecipesTest, counts: tuple[int, int, int] | None) -> None:
        self.test, self.counts = test, counts
        self.status = 0
        for bit, count in zip((1, 2, 4), counts or ()):
            self.status |= bit if count else 0
        self.mail = ""

    def ask_all(self) -> None:
        for ask in (self.command, self.jobs, self.check, self.metrics, self.log, self.hosts):
            with self.test.subTest(ask.__name__, counts=self.counts):
                ask()

    def command(self) -> None:
        done = self.test.recipe("compare")
        self.test.assertEqual(done.status, self.status, done)
        if self.counts is None:
            self.test.assertRegex(done.output, rb"\Ano differences in .*\n\Z")
            self.test.assertIn(b"both databases are equal", done.errors)
        else:
            self.test.assertRegex(done.output, rb"\A18 open \(4 high\) of 22 changes\n")
            self.test.assertEqual(done.errors.count(b" database: "), 2, done)

    def jobs(self) -> None:
        for name, commands in self.test.jobs():
            if os.path.exists(self.test.path(STATE)):
                os.remove(self.test.path(STATE))
            mail = self.test.mail_of(commands)
            if self.counts is None:
                self.test.assertIsNone(mail, name)
            else:
                self.test.assertRegex(
                    mail or "", f"(?m)^Subject: .* of {sum(self.counts)} changes$"
                )
            self.mail = mail or ""
            self.test.assertEqual(self.test.state()["status"], str(self.status), name)

    def check(self) -> None:
        done = self.test.recipe("check", NOBODY)
        output = done.output_text
        word = "OK" if self.counts is None else "CRITICAL"
        self.test.assertEqual(done.status, 0 if self.counts is None else 2, done)
        self.test.assertRegex(output, rf"\AAIDE {word}: .*\n\Z")
        added, removed, changed = self.counts or (0, 0, 0)
        numbers = f"|added={added} removed={removed} changed={changed} "
        self.test.assertIn(numbers, output.replace("'", ""))
        limits = self.test.recipe("check limits", NOBODY)
        self.test.assertEqual(limits.status, done.status, limits)
        if self.counts:
            self.test.prints("check", output)

    def metrics(self) -> None:
        self.test.assertEqual(self.test.recipe("metrics"), Answer(b"", b"", 0))
        text = self.test.run_words(["cat", self.test.path(METRICS)], NOBODY).output_text
        for word, count in zip(("added", "removed", "changed"), self.counts or (0, 0, 0)):
            self.test.assertIn(f"\naide_compare_{word}_entries {count}\n", text)

    def log(self) -> None:
        self.test.taken("logged")
        status = self.test.recipe("log").status
        text = (self.test.taken("logged") or "").partition("\n")[2]
        self.test.assertEqual(status, 0)
        state = json.loads(text)
        counts = tuple(state[word] for word in ("added", "removed", "changed"))
        self.test.assertEqual(counts, self.counts or (0, 0, 0))

    def hosts(self) -> None:
        done = self.test.recipe("hosts")
        self.test.assertEqual(done.status, self.status, done)
        if self.counts is None:
            self.test.assertIn("www 0 no differences", done.output_text)
        else:
            self.test.prints("hosts", done.output_text)


def no_comparison(test: RecipesTest, status: int, reason: str) -> None:
    """Every way says that nothing was compared, and why."""
    done = test.recipe("compare")
    if "--max-age" not in reason:
        test.assertEqual((done.status, done.output), (status, b""), done)
        test.assertRegex(done.error_text, reason)
    for name, commands in test.jobs():
        mail = " ".join((test.mail_of(commands) or "").split(" "))
        test.assertRegex(mail, rf"(?m)^Subject: .*: failure \(status {status}\)$", name)
        test.assertRegex(" ".join(mail.split()), reason)
        test.assertEqual(test.state()["status"], str(status))
        test.assertRegex(test.state()["error"], reason)
    done = test.recipe("check", NOBODY)
    test.assertEqual(done.status, 3, done)
    test.assertRegex(done.output, rb"\AAIDE UNKNOWN: .*\n\Z")
    test.assertEqual(test.recipe("metrics").status, 0)
    test.assertIn(f"\naide_compare_status {status}\n", test.text_at(METRICS))
    test.assertNotIn("_entries", test.text_at(METRICS))
    test.taken("logged")
    test.assertEqual(test.recipe("log").status, 0)
    test.assertIn(f'"status": {status},', test.taken("logged") or "")


def begin(test: RecipesTest) -> None:
    """Day 0: what was AIDE's first database is the baseline here and on the collector."""
    test.put_databases(example("old.db"), example("old.db"))
    output = test.set_up().output_text
    test.assertTrue(test.taken("mailed"), "the test mail")
    test.prints("first", output)
    # The days that follow have only what the units need.
    os.remove(test.path("/etc/aide-compare/without"))
    test.write("/etc/aide-compare/defaults", test.below(DEFAULTS))
    test.prints("at once", test.recipe("at once").output_text)
    test.assertEqual(test.recipe("cron daily"), Answer(b"", b"", 0))
    test.write(HOSTS, "www\n")
    os.makedirs(test.path("/remote"))
    os.symlink(test.path("/var/lib/aide"), test.path("/remote/www"))
    digest = hashlib.sha256(example("old.db")).hexdigest()
    done = test.shell(f"DIGEST={digest}; {test.text('first host')}")
    test.assertEqual(done.status, 0, done)
    test.assertIn(b"www is watched", done.output)
