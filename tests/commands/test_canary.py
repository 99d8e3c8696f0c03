"""Many hosts beside a canary: what changed there too is silent on the others, and is reported on
the canary. If it fails, the others are compared all the same."""
from __future__ import annotations

import os
import stat
import time
from typing import Any

from tests.commands.units.calls import ModuleTest, misused
from tests.commands.made_up import Night, time_of
from tests.commands.sandbox import CommandTest
from tests.commands.test_hosts_report import Hosts
from tests.commands.viewers.pages import data_in

from aide_compare.compare.state import State
from aide_compare.hosts import canary
from aide_compare.hosts.report_values import Host
from aide_compare.lines.change import Counts

ONE, TWO, EVIL = b"one", b"two, of the upgraded package", b"EVIL"
NOTE = "canary www1: changes that it went through too are silent on the other hosts"
USED = f"C{NOTE[1:]}\n"
NAMES = ("www1", "www2", "www3", "www4")
MARK = b"/usr/bin/mark"
FIVE = "0 added, 0 removed, 5 changed: "
# A state of another database than the one that is there.


def other_copy(*words: Any) -> Any:
    """A copy of a database whose digest is another one."""
    from aide_compare.compare.unpack import copy_database

    copy = copy_database(*words)
    copy.digest = "0" * 64
    return copy


def database(is_new: bool, number: int, mark: bytes = b"") -> bytes:
    """A host before or after an upgrade, perhaps with a file that nobody else has."""
    night = Night()
    times: dict[str, Any] = {"mtime": time_of(1000 + number), "inode": number}
    for path in (b"/", b"/usr", b"/usr/bin"):
        night.directory(path, **times)
    for name in (b"a", b"b"):
        night.file(b"/usr/bin/" + name, TWO if is_new else ONE, 0o100755, **times)
    if mark and is_new:
        night.file(MARK, mark, 0o104755)
    return night.database()


class CanaryTest(CommandTest):
    def fleet(self, *marked: str) -> Hosts:
        """Four hosts with the same upgrade, of which some have a mark."""
        hosts = Hosts(self)
        for number, host in enumerate(NAMES, 1):
            new = database(True, 50 + number, EVIL if host in marked else b"")
            hosts.put(host, new, database(False, number))
        hosts.list_hosts(*NAMES)
        return hosts

    def compared(self, hosts: Hosts, *words: str) -> list[str]:
        """The lines of a comparison of all hosts."""
        done = hosts.compare(*words, self.path("hosts"))
        self.assertGreaterEqual(done.status, 4, (words, done))
        self.assertEqual(done.errors, b"", words)
        return done.output_text.splitlines()

    def test_reports(self) -> None:
        """A report begins with the canary, and names nobody who has only what it has."""
        hosts = self.fleet("www3")
        self.compared(hosts, "--canary", "www1")
        for form in ("text", "brief"):
            text = hosts.report("--format", form).output_text
            self.assertTrue(text.startswith(USED + "\naide on 4 hosts: 2 differ"), text)
            self.assertNotRegex(text, "www2|www4")
            self.assertIn("/usr/bin/mark", text)
        page = data_in(hosts.report("--format", "page").output_text)["heading"]
        self.assertIn(USED.strip(), page["remarks"])
        self.set_names("hosts.hosts_page", MAX_PAGE=1)
        page = data_in(hosts.report("--format", "page").output_text)["heading"]
        self.assertIn("This page has no room for 3 more changes", page["remarks"][-1])
        self.assertIn(USED.strip(), page["remarks"], "also without room")
        summary, _, changes = hosts.objects()
        self.assertEqual(summary["canary"], [NOTE])
        told = {(each["path"], tuple(each["names"])) for each in changes}
        wanted = {("/usr/bin/a", ("www1",)), ("/usr/bin/b", ("www1",)), (MARK.decode(), ("www3",))}
        self.assertEqual(told, wanted, "each path that changed is reported at least once")
        self.compared(hosts)
        text = hosts.report().output_text
        self.assertTrue(text.startswith("aide on 4 hosts: 4 differ"), "no note without a canary")

    def check_failed(self, hosts: Hosts, cause: str, *words: str) -> None:
        """Without the canary the others were compared, none is silent, and the report says so."""
        note = f"canary www1 was not used, so the others were compared without it: {cause}"
        lines = self.compared(hosts, *words, "--canary", "www1")
        self.assertTrue(lines[1].startswith(note), lines)
        text = hosts.report().output_text
        self.assertTrue(text.startswith(f"In the last run {note}"), text)
        brief = hosts.report("--format=brief").output_text
        self.assertTrue(" ".join(brief.split()).startswith(f"In the last run {note}"), brief)
        self.assertIn("\nopen=2\n", hosts.state("www2"))

    def test_failed(self) -> None:
        """A canary that cannot be compared, or is late, silences nothing. That is said first."""
        hosts = self.fleet("www3")
        sound = self.read("remote/www1")
        self.write("remote/www1", b"")
        self.check_failed(hosts, "sent nothing")
        self.write("remote/www1", b"x\n")
        self.check_failed(hosts, "aide: new database:1: no @@begin_db")
        self.write("remote/www1", sound)
        self.compared(hosts, "--canary", "www1")
        kept = self.path("store/hosts/www1/aide.db.new")
        os.utime(kept, (time.time() - 9 * 3600,) * 2)
        late = "has sent no new database for more than 90 minutes"
        self.check_failed(hosts, late, "--same-for", "90m")

    def test_no_note(self) -> None:
        """A note that cannot be replaced keeps no host from being compared, and reports say so."""
        hosts = self.fleet()
        os.mkdir(self.path("store/canary"))
        lines = self.compared(hosts, "--canary", "www1")
        self.assertIn(f"www2 0 {FIVE}5 changes, all silent", lines)
        text = hosts.report().output_text
        self.assertRegex(text, f"Cannot open the note of the canary .*: it is a directory\n{USED}")

    def test_no_host(self) -> None:
        """A canary that is not in the list is refused, and what is no name."""
        self.fleet()
        for name in ("nobody", "-x", "../www1", "a b", ""):
            words = ("--store", self.path("store"), f"--canary={name}", self.path("hosts"))
            self.assertEqual(misused(self, "aide-compare hosts compare", *words)[0], 15, name)

    def test_changed(self) -> None:
        """Only the very databases that were compared are trusted."""
        hosts = self.fleet("www3")
        self.patch("hosts.canary.copy_database", other_copy)
        lines = self.compared(hosts, "--canary", "www1")
        cause = r"aide\.db(\.new)? is not the database that was compared\Z"
        self.assertRegex(lines[1], cause)
        self.assertIn(f"www2 4 {FIVE}2 open (2 high) of 5 changes", lines, "nothing is silent then")

    def test_whole(self) -> None:
        """Whatever floods the canary, each of its changes is listed, or it is not used."""
        for name, limit, is_used in (("MAX_KEPT", 600, True), ("MAX_JUDGED", 1400, False)):
            hosts = self.fleet("www1", "www2")
            self.set_names("hosts.host_comparison", **{name: limit})
            lines = self.compared(hosts, "--canary", "www1")
            note = "canary www1 was not used, so the others were compared without it: only 2 of"
            self.assertEqual(lines[1].startswith(note), not is_used, (name, lines))
            told = {each["path"] for each in hosts.objects()[2]}
            self.assertTrue({"/usr/bin/a", MARK.decode()} <= told or not is_used, (name, told))
            is_silent = "\nopen=0\n" in hosts.state("www2")
            self.assertEqual(is_silent, is_used, (name, hosts.state("www2")))

    def test_same(self) -> None:
        """A canary without a difference is used, and silences nothing."""
        hosts = self.fleet()
        hosts.put("www1", database(False, 1), database(False, 1))
        lines = self.compared(hosts, "--canary", "www1")
        self.assertTrue(lines[0].startswith("www1 0 "), lines)
        self.assertFalse([line for line in lines if "was not used" in line])
        self.assertIn(f"www2 4 {FIVE}2 open (2 high) of 5 changes", lines)

    def test_left_out_there(self) -> None:
        """What the list leaves out on the canary is told of a host on which it gives a right."""
        self.write("etc/without", "/var/**\n")
        hosts = self.fleet()
        for number, (host, mode) in enumerate((("www1", 0o100644), ("www2", 0o104644)), 1):
            texts = []
            for is_new in (True, False):
                night = Night()
                content = TWO if is_new else ONE
                night.file(b"/var/x", content, mode if is_new else 0o100644, inode=number)
                texts.append(night.database())
            hosts.put(host, *texts)
        lines = self.compared(hosts, "--canary", "www1")
        silent = "1 change, all silent; left out: 1 of 1 change"
        self.assertEqual(lines[0], f"www1 0 0 added, 0 removed, 1 changed: {silent}")
        told = "www2 4 0 added, 0 removed, 1 changed: 1 open (1 high) of 1 change"
        self.assertIn(told, lines)


class NotesTest(ModuleTest):
    def test_notes(self) -> None:
        """A note is the owner's alone and has an end. One that cannot be read, or is none, is told
        and mailed, until the next run."""
        for name in ("one", "two", "three"):
            os.mkdir(self.path(name))
        canary.keep_note(self.path("one"), "canary a\n" + "\u00e9" * 20000)
        found = os.stat(self.path("one/canary"))
        self.assertEqual(stat.S_IMODE(found.st_mode), 0o600)
        self.assertLess(found.st_size, 40000)
        os.mkfifo(self.path("two/canary"))
        self.write("three/canary", "{}")
        for name, wanted, is_alarm in (
            ("one", "canary a\\012\u00e9", False),
            ("two", "it is a FIFO", True),
            ("three", "is damaged", True),
        ):
            (line,), is_told = canary.notes_of(self.path(name), [])
            self.assertIn(wanted, line)
            self.assertEqual(is_told, is_alarm, line)
            canary.keep_note(self.path(name), "")
            self.assertEqual(os.listdir(self.path(name)), [])

    def test_circle(self) -> None:
        """Hosts that are silent beside each other, as by two runs at once, list nothing."""
        hosts = []
        for name, other in (("a", "b"), ("b", "a")):
            state = State(4, 1, 0, 0, 1, new_sha256=name * 64, standings=Counts(trusted=1))
            place = f"/store/hosts/{other}/aide.db.new"
            state = state._replace(trusted_new=place, trusted_new_sha256=other * 64)
            hosts.append(Host(name, 0, "", state))
        lines, is_alarm = canary.notes_of(self.path("store"), hosts)
        self.assertEqual([canary.UNLISTED in each for each in lines], [is_alarm, True])
