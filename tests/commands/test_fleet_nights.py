"""Many hosts over some nights beside a canary: an upgrade that some get later, what is accepted in
between, and changes that must be listed whatever the canary has."""
from __future__ import annotations

import hashlib
import os
import re
import time
from typing import Any

from tests.commands.made_up import Night, base64_of, time_of
from tests.commands.sandbox import CommandTest
from tests.commands.test_hosts_report import Hosts
from tests.lib.answer import Answer

ACCEPT = "aide-compare hosts accept"
CANARY = "www1"
NAMES = tuple(f"www{number}" for number in range(1, 6))
LATE = ("www4", "www5")
EVIL = "www3"
MARK = b"/usr/bin/mark"
DAY = 86400
Files = dict[bytes, bytes]


def database(number: int, is_upgraded: bool, more: Files | None = None) -> bytes:
    """A host in one night, with times of its own: an upgrade changes two files, makes one and
    removes one. All are programs of root's, and those of `more` have a set-ID bit."""
    night = Night()
    times: dict[str, Any] = {"mtime": time_of(1000 + number), "inode": number}
    for path in (b"/", b"/usr", b"/usr/bin"):
        night.directory(path, lcount=4, **times)
    version = b"two" if is_upgraded else b"one"
    for name in (b"a", b"b", b"made" if is_upgraded else b"removed"):
        night.file(b"/usr/bin/" + name, version, 0o100755, **times)
    for path, content in (more or {}).items():
        night.file(path, content, 0o104755, **times)
    night.file(b"/var/log/syslog", b"%d" % number)
    return night.database()


class Fleet(Hosts):
    """Hosts that are compared beside a canary, and what is listed and accepted then."""

    def __init__(self, sandbox: CommandTest) -> None:
        super().__init__(sandbox)
        sandbox.write("etc/without", "/var/log/**\n")
        self.number = 0
        for host in NAMES:
            self.put(host, b"", database(self.next_number(), False))
        self.list_hosts(*NAMES)

    def next_number(self) -> int:
        self.number += 1
        return self.number

    def send(self, upgraded: tuple[str, ...], marks: dict[str, Files] | None = None) -> None:
        for host in NAMES:
            more = (marks or {}).get(host)
            self.put(host, database(self.next_number(), host in upgraded, more), None)

    def night(self, *words: str) -> dict[str, int]:
        """Compares beside the canary: how many changes are open where, as lines and report say."""
        said = self.compare("--canary", CANARY, *words, self.sandbox.path("hosts"))
        self.sandbox.assertLessEqual(said.status, 7, said)
        summary, self.found, changes = self.objects()
        opened = {host: each["open"] or 0 for host, each in self.found.items() if each["status"]}
        listed = {name for each in changes for name in each["names"]}
        named = {host: count for host, count in opened.items() if count}
        self.sandbox.assertEqual(set(named), listed, "the hosts that the changes name")
        self.sandbox.assertEqual(summary["differ"], len(named))
        return named

    def accept(self, host: str) -> None:
        digest = re.search("(?m)^new_sha256=(.*)$", self.state(host))
        assert digest is not None
        said = self.call(ACCEPT, "-q", "--sha256", digest.group(1), host)
        self.sandbox.assertEqual(said, Answer(b"", b"", 0))

    def accept_silent(self) -> set[str]:
        """Accepts all hosts of which the last report has nothing open. Returns their names."""
        found = {name for name, host in self.found.items() if host["open"] == 0}
        for host in found:
            self.accept(host)
        return found


class FleetNightsTest(CommandTest):
    def nights(self, silent_first: bool) -> None:
        fleet = Fleet(self)
        in_time = tuple(host for host in NAMES if host not in LATE)
        mark = {EVIL: {MARK: b"x"}}
        fleet.send(in_time, mark)
        self.assertEqual(fleet.night(), {CANARY: 4, EVIL: 1}, "the night of the upgrade")
        if not silent_first:
            fleet.accept(CANARY)
            fleet.found = fleet.objects()[1]
        self.assertEqual(fleet.accept_silent(), {*NAMES} - {CANARY, EVIL})
        if silent_first:
            fleet.accept(CANARY)
        fleet.send(NAMES, mark)
        self.assertEqual(fleet.night(), {EVIL: 1}, "those that lag are quiet")
        self.assertIn(", which was accepted: changes", fleet.report().output_text.split("\n")[0])
        self.assertIn("www4", fleet.accept_silent())
        fleet.accept(EVIL)
        fleet.send(NAMES, mark)
        self.assertEqual(fleet.night(), {}, "an idle night")
        hosts = self.path("hosts")
        for words in (("--canary", CANARY), ()):
            said = fleet.compare("-q", *words, "--no-fetch", hosts)
            self.assertEqual((said.output_text, said.error_text), ("", ""), "nobody is named")

    def test_upgrade(self) -> None:
        """Night 1: the canary is named, and who has a mark. The canary is accepted. Night 2: hosts
        that are upgraded then are quiet. Night 3: nobody is named."""
        self.nights(silent_first=True)

    def test_canary_first(self) -> None:
        """The same if the canary is accepted before the others."""
        self.nights(silent_first=False)

    def late(self) -> Fleet:
        """The second night of an upgrade: the canary was accepted, and some hosts got it late."""
        fleet = Fleet(self)
        fleet.send(tuple(host for host in NAMES if host not in LATE))
        self.assertEqual(fleet.night(), {CANARY: 4})
        fleet.accept_silent()
        fleet.accept(CANARY)
        fleet.send(NAMES)
        self.assertEqual(fleet.night(), {})
        return fleet

    def test_late(self) -> None:
        """The pair before the canary was accepted serves for a week, for the same list of what is
        left out, for no other database, and only until something new differs on the canary."""
        fleet = self.late()
        fleet.list_hosts(LATE[0])
        fleet.compare(self.path("hosts"))
        fleet.list_hosts(*NAMES)
        report = fleet.report().output_text
        self.assertIn(", which was accepted: changes", report, "after one host without a canary")
        loud = {host: 4 for host in LATE}
        listed = self.path(f"store/hosts/{CANARY}/listed")
        for days in (8, -8):  # Or a clock was wrong.
            os.utime(listed, (time.time() - days * DAY,) * 2)
            self.assertEqual(fleet.night(), loud, "a week later")
        os.utime(listed)
        self.assertEqual(fleet.night(), {})
        self.write("etc/without", "/var/log/**\n/srv/**\n")
        self.assertEqual(fleet.night(), loud, "another list")
        self.write("etc/without", "/var/log/**\n")
        previous = f"store/hosts/{CANARY}/aide.db.previous"
        text = self.read(previous)
        self.write(previous, text.replace(b"/usr/bin/a ", b"/usr/bin/A "), 0o600)
        self.assertEqual(fleet.night(), loud, "another database")
        self.write(previous, text, 0o600)
        self.write(listed, "[1]")
        self.assertEqual(fleet.night(), loud, "no pair")
        fleet.send(NAMES, {CANARY: {MARK: b"x"}})
        self.assertEqual(fleet.night(), {CANARY: 1, **loud}, "something new")


def program(path: str, sha256: bytes = b"", sha512: bytes = b"", owner: int = 0) -> str:
    """The line of a set-ID program of which AIDE has measured the digests of these contents."""
    texts = {"sha256": sha256, "sha512": sha512}
    fields = []
    for name, text in texts.items():
        fields.append(base64_of(hashlib.new(name, text).digest()) if text else "0")
    return f"{path} 104755 {owner} 0 9 MQ== 5 1 {' '.join(fields)}\n"


def measured(*lines: str) -> bytes:
    head = "@@begin_db\n@@db_spec name perm uid gid size mtime inode lcount sha256 sha512\n"
    return (head + "".join(sorted(lines)) + "@@end_db\n").encode()


class ListedOnceTest(CommandTest):
    """Every change that is not silent for its old entry is listed on some host."""

    def opened(self, texts: dict[str, tuple[bytes, bytes]]) -> dict[str, str]:
        """The paths of the open changes by their hosts, of which the first one is the canary."""
        hosts = Hosts(self)
        for host, (old, new) in texts.items():
            self.write(f"store/hosts/{host}/aide.db", old, 0o600)
            hosts.put(host, new, None)
        hosts.list_hosts(*texts)
        said = hosts.compare("--canary", next(iter(texts)), self.path("hosts"))
        self.assertIn(said.status, (1, 2, 4, 5, 7), said)
        found: dict[str, list[str]] = {}
        for each in hosts.objects()[2]:
            for name in each["names"]:
                found.setdefault(name, []).append(each["path"])
        return {host: " ".join(sorted(paths)) for host, paths in found.items()}

    def test_always_there(self) -> None:
        """What the canary always or never had is no change there, but where it came or went."""
        weak = program("/bin/su", b"weak")
        www = measured(weak, program("/bin/nmap", b"nmap"))
        db1 = (measured(program("/bin/su", b"hard"), program("/sbin/x", b"x")), www)
        found = self.opened({"www": (www, www), "db1": db1})
        self.assertEqual(found, {"db1": "/bin/nmap /bin/su /sbin/x"})
        went = (measured(weak, program("/sbin/x", b"x")), measured(weak))
        other = (measured(weak, program("/sbin/x", b"another")), measured(weak))
        found = self.opened({"www": went, "db1": other, "db2": went})
        self.assertEqual(found, {"www": "/sbin/x", "db1": "/sbin/x"}, "another file was removed")

    def test_whole_entry(self) -> None:
        """Where the canary changed in its owner alone, that is listed, and a host that had another
        content and comes to the same entry is listed too."""
        before, after = program("/bin/su", b"weak"), program("/bin/su", b"weak", owner=7)
        db1 = (measured(program("/bin/su", b"hard", owner=7)), measured(after))
        found = self.opened({"www": (measured(before), measured(after)), "db1": db1})
        self.assertEqual(found, {"www": "/bin/su", "db1": "/bin/su"})
        found = self.opened({"www": (measured(after), measured(after)), "db1": db1})
        self.assertEqual(found, {"db1": "/bin/su"})

    def test_digests(self) -> None:
        """A canary cannot add a digest of another content to an entry that stays the same by those
        that it had, not in one night and not in two."""
        good = measured(program("/bin/su", b"good"))
        both = measured(program("/bin/su", b"good", b"evil"))
        only = measured(program("/bin/su", b"", b"evil"))
        db1 = (measured(program("/bin/su", b"", b"good")), only)
        self.assertEqual(self.opened({"www": (good, both), "db1": db1}), {"db1": "/bin/su"})
        self.assertEqual(self.opened({"www": (both, only), "db1": db1}), {"db1": "/bin/su"})
        self.write("store/hosts/www/aide.db.previous", good, 0o600)
        self.assertEqual(self.opened({"www": (both, only), "db1": db1}), {"db1": "/bin/su"})
        found = self.opened({"www": (good, only), "db1": db1})
        self.assertEqual(found, {"www": "/bin/su", "db1": "/bin/su"}, "no common digest there")

    def mailed(self, fleet: Fleet, path: str = "hosts") -> str:
        """What the mail about some hosts says first; nothing if there is none."""
        self.stub("sendmail", f'cat > "{self.root}/mail"')
        self.write("mail", "")
        said = fleet.call("aide-compare hosts report", "--to", "root", self.path(path))
        self.assertEqual(said.error_text, "")
        head = self.read("mail").decode().partition("\n\n")[2].partition("\n\n")[0]
        return " ".join(head.split())

    def test_again(self) -> None:
        """A report says first, and by mail, that what was silent beside a canary is listed nowhere:
        the canary was compared again, too long ago, or is no host of the report."""
        fleet = Fleet(self)
        fleet.send(NAMES)
        self.assertEqual(fleet.night(), {CANARY: 4})
        warning = f"Canary {CANARY}: what was silent beside it is not listed here"
        self.assertNotIn(warning, self.mailed(fleet))
        self.write("others", "".join(f"{host}\n" for host in NAMES if host != CANARY))
        self.assertIn(warning, self.mailed(fleet, "others"))
        state = f"store/states/{CANARY}"
        self.write(state, re.sub(b'"time": [0-9]+', b'"time": 1', self.read(state)))
        self.assertIn(warning, self.mailed(fleet), "too old")
        fleet.send(())
        fleet.compare_one(CANARY)
        self.assertIn(warning, self.mailed(fleet), "compared again")

    def test_later_runs(self) -> None:
        """The warning stays whatever later runs over other hosts do: one whose canary fails, one
        with another canary, one without any."""
        fleet = Fleet(self)
        fleet.send(NAMES)
        self.assertEqual(fleet.night(), {CANARY: 4})
        warning = f"Canary {CANARY}: what was silent beside it is not listed here"
        part = self.write("part", f"{CANARY}\nwww4\n")
        self.write(f"down/{CANARY}", "")
        fleet.compare("--canary", CANARY, part)
        self.assertRegex(self.mailed(fleet), f"^{warning}.* In the last run canary {CANARY} was")
        os.remove(self.path(f"down/{CANARY}"))
        fleet.send(())
        fleet.compare("--canary", "www4", part)
        self.assertIn(warning, self.mailed(fleet), "another canary")
        fleet.compare(part)
        self.assertIn(warning, self.mailed(fleet), "no canary, and nothing to read")
