"""What is installed works; its pages, units and files for cron name what is installed."""
from __future__ import annotations

import hashlib
import os
import pwd
import re
import shutil

from tests.lib.answer import Answer
from tests.lib.program_test import slow
from tests.lib.programs import lines_program_of
from tests.lib.scratch import TOP, read
from tests.packaging.installation import InstallTest, texts, tree
from tests.packaging.test_install import DOCUMENTS

# The paths below a prefix that the installed texts name.
OWN_PATH = r"/(?:bin/aide-compare|lib/aide-compare/|lib/nagios|lib/systemd/|share/doc/aide-compare)"
OWN_PATH += r"[\w./-]*"
# Paths of the repository that mean nothing to a reader of an installed page.
SOURCE_PATH = re.compile(
    r"(?<![\w/.-])(?:(?:docs|tests|tools|crates|contrib|man|bench|specs)/[\w.*-]+|\.\./[\w.]+)"
)
START = (
    "/usr/local/bin/aide-compare mail --alarm-sent-is-success "
    "--queue /var/lib/aide-compare/daily/mail"
)
UNKNOWN = "a proved build: not known: no record of a proof\n"


@slow
class InstalledTest(InstallTest):
    def test_programs(self) -> None:
        command = self.first("bin/aide-compare")
        self.assertEqual(os.listdir(self.first("bin")), ["aide-compare"], "one command")
        examples = os.path.join(TOP, "examples")
        words = ["-E", "-c", examples + "/aide.conf", "-B", f"@@define DIR {examples}"]
        done = self.run_words([command, *words])
        self.assertEqual((done.status, done.output_text[:22]), (7, "AIDE found differences"), done)

    def test_version_of_programs(self) -> None:
        """The version says which programs there are, and which of them are run. Proved is what has
        the record of a proof."""
        digests = []
        for program in sorted((self.program, lines_program_of(self.program), *self.newer)):
            digests.append(hashlib.sha256(self.read(program)).hexdigest())
        done = self.run_words([self.first("bin/aide-compare"), "--version"])
        self.assertEqual(done.status, 0, done)
        self.assertTrue(done.output_text.startswith(f"aide-compare {self.version}\n"), done)
        self.assertEqual(re.findall("\nSHA-256: (.*)\n", done.output_text), digests)
        self.assertEqual(done.output_text.count(UNKNOWN), 2, "two without a record")
        self.assertEqual(
            done.output_text.count("kit: a kit\na proved build: yes\n"), 2, "two with one"
        )
        runs = re.findall("\nrun on this machine: (.*)", done.output_text)
        self.assertIn(runs, (["yes", "no"] * 2, ["no", "yes"] * 2), "one of two runs")

    def test_pages(self) -> None:
        """Each command has a page, which has the version and names no file of the repository."""
        found = texts(tree(self.first()))
        pages = {path: text for path, text in found.items() if path.startswith("share/man/")}
        commands = [*os.listdir(self.first("bin")), *os.listdir(self.first("lib/nagios/plugins"))]
        for name in commands:
            names = {f"share/man/man{part}/{name}.{part}" for part in (1, 8)}
            self.assertTrue(names & pages.keys(), "a manual page of " + name)
        for path, text in pages.items():
            if text.startswith(".so "):
                self.assertIn(f"share/man/{text[4:-1]}", pages, path)
                continue
            self.assertIn(f"\n.Os aide-compare {self.version}\n", text, path)
            self.assertEqual(SOURCE_PATH.findall(text), [], path)
            for name in re.findall(r"^\.Pa ([^\s*]+\.md)(?!\S)", text, re.M):
                self.assertEqual(name[:11], "/usr/local/", path)
                self.assertIn(name[11:], found, path)

    def test_documents(self) -> None:
        """Documents link to one another where they lie now, and to what is installed alone."""
        links = [
            (path, name)
            for path, text in texts(tree(self.first())).items()
            if path.startswith(DOCUMENTS) and path.endswith(".md")
            for name in re.findall(r"\]\(([^)#:]+)(?:#[^)]*)?\)", text)
        ]
        self.assertGreater(len(links), 5)
        lost = [link for link in links if not os.path.exists(self.first(DOCUMENTS, link[1]))]
        self.assertEqual(lost, [])

    def test_readme(self) -> None:
        """README tells nobody to run what only a clone has, and goes on with how to begin."""
        with open(self.first(DOCUMENTS, "README.md"), encoding="utf-8") as file:
            text = file.read()
        for name in ("packaging/", "./compare", "in a clone", "make_package"):
            self.assertNotIn(name, text)
        sections = re.findall("(?m)^## (.*)", text)
        self.assertEqual(
            sections[:3], ["One night, shown twice", "When a change is silent", "Set up"]
        )
        self.assertIn("\n    aide-compare setup\n", text)

    def test_prefix(self) -> None:
        """With another prefix no text names the usual one, and what the texts name is there."""
        found = self.installed("elsewhere", "--prefix", "/opt/aide")
        named: set[str] = set()
        for path, text in texts(found).items():
            self.assertNotRegex(text, "/usr/local" + OWN_PATH, path)
            if not path.endswith(("/installed", "/CHANGELOG.md")):
                named.update(re.findall("/opt/aide" + OWN_PATH, text))
        named = {name.rstrip(".") for name in named if not name.endswith(("-", "/", "/system"))}
        self.assertGreater(len(named), 4, "texts that name what is installed")
        there = {"/" + path for path in found}
        lost = [
            name for name in named if not any((one + "/").startswith(name + "/") for one in there)
        ]
        self.assertEqual(lost, [], "what the texts name is installed")

    def test_units(self) -> None:
        """The units are sound where systemd says so, and call what is installed."""
        units = texts(tree(self.first("lib/systemd/system")))
        service = units["aide-compare.service"]
        self.assertEqual(re.findall(r"^ExecStart=(.*)$", service, re.M), [START])
        self.needs("systemd-analyze")
        printed = self.run_words(["systemd-analyze", "--version"]).output_text
        release = re.match(r"systemd (\d+)", printed)
        if not release or int(release[1]) < 252:
            self.skipTest("not installed: systemd-analyze of systemd")
        for name, text in units.items():
            text = text.replace(START, "/bin/true")
            self.write("units/" + name, text.replace("/usr/local/bin/aide-compare", "/bin/true"))
        copy, timer = self.path("units/aide-compare.service"), self.path("units/aide-compare.timer")
        exposed = ["systemd-analyze", "security", "--offline=true", "--threshold=10", copy]
        done = self.run_words(exposed)
        self.assertEqual(
            done.status, 0, ("the service is exposed by 1.0 at most", done.output_text[-80:])
        )
        done = self.run_words(["systemd-analyze", "verify", "--man=no", copy, timer])
        self.assertEqual((done.status, "aide-compare" in done.error_text), (0, False), done)

    def test_cron(self) -> None:
        """The jobs are silent, also where the tool ends with differences or is gone."""
        name, called = "examples/cron/aide-compare.cron.daily", self.path("called")
        os.makedirs(self.path("lib/aide"))
        text = self.read(self.first(DOCUMENTS, name)).replace(b"/usr/local", self.root.encode())
        text = text.replace(b"/var/lib/", os.fsencode(self.path("lib/")))
        daily = self.write("aide-compare.cron.daily", text, 0o755)
        tool = self.path("bin/aide-compare")
        for status in (0, 5, 18):
            stub = f'#!/bin/sh\necho "$0 $*" >> "{called}"\nexit {status}\n'
            self.write("bin/aide-compare", stub, 0o755)
            pair = self.write("lib/aide-compare/daily/signed.db", "of another night")
            self.assertEqual(self.run_words([daily]), Answer(b"", b"", status))
            self.assertFalse(os.path.exists(pair))
        shutil.rmtree(os.path.dirname(pair))
        self.run_words(["sh", "-c", f"umask 077; {daily}"])
        self.assertEqual(os.stat(os.path.dirname(pair)).st_mode & 0o777, 0o755)
        os.mkdir(pair)
        self.assertEqual(self.run_words([daily]).status, 1, "it cannot be removed")
        os.remove(tool)
        self.assertEqual(self.run_words([daily]), Answer(b"", b"", 0))
        lines = self.read(called).decode().splitlines()
        user = pwd.getpwuid(os.geteuid()).pw_name
        wanted = f"{tool} mail --user {user} --alarm-sent-is-success"
        self.assertEqual(lines, [wanted] * 4, "what the jobs call")
        with self.subTest("run-parts"):
            self.needs("run-parts")
            for name in ("aide-compare.cron.daily", "zz-aide-compare"):
                target = self.path("parts-" + name, name)
                os.makedirs(os.path.dirname(target))
                shutil.copy(daily, target)
                done = self.run_words(["run-parts", "--test", os.path.dirname(target)])
                self.assertEqual(target in done.output_text, name == "zz-aide-compare", done)

    def test_version(self) -> None:
        """Whatever else names a version agrees with VERSION."""
        self.assertRegex(self.version, r"\A\d+\.\d+\.\d+\Z")
        self.assertIn(self.version, re.findall(r"^## (\S+)", read("CHANGELOG.md"), re.M))
        wanted = {f"aide-compare-{self.version}-x86_64", f"aide-compare_{self.version}-1_amd64"}
        for name in ("README.md", "docs/GUIDE.md"):
            found = re.findall(r"aide-compare[_-]\d[\w.-]*?(?:-x86_64|_amd64)", read(name))
            self.assertLessEqual(set(found), wanted, name)

    def test_unproved(self) -> None:
        """The name of an unproved program marks each command's version."""
        program = self.copied_programs(self.program, "unproved programs", "aide-unproved")
        done = self.install("--destdir", self.path("unproved"), "--program", program)
        self.assertEqual(done.status, 0, done)
        done = self.run_words([self.path("unproved/usr/local/bin/aide-compare"), "--version"])
        count = done.output_text.count("a proved build: no\n")
        self.assertEqual((done.status, count), (0, 2), done)
        first = done.output_text.partition("\n")[0]
        self.assertEqual(first, f"aide-compare {self.version}, unproved")
