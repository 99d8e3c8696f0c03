"""aide-compare hosts accept: by a question on a terminal, and for all hosts that differ by silent
changes only; and commands over many hosts that are given the name of one."""
from __future__ import annotations

import os
import time

from tests.lib.terminal import Terminal

from .made_up import Night, time_of
from .sandbox import NEW, OLD, CommandTest, sha256
from .test_fleet import Fleet

ACCEPT = "aide-compare hosts accept"
PROMPT = b"? [y/N] "
# A night in which nothing but a time differs.
BEFORE = Night().file(b"/srv/a", b"text").database()
TOUCHED = Night().file(b"/srv/a", b"text", mtime=time_of(2000)).database()
UPGRADED = Night().file(b"/srv/a", b"other").database()
UPGRADED_TOUCHED = Night().file(b"/srv/a", b"other", mtime=time_of(2000)).database()


class HostsAcceptTest(CommandTest):
    def setUp(self) -> None:
        super().setUp()
        self.fleet = Fleet(self)

    def baseline(self, host: str) -> bytes:
        return self.read(f"store/hosts/{host}/aide.db")

    def asked(self, host: str, answer: bytes) -> tuple[int, bytes]:
        environment = self.environment(TERM="xterm")
        words = self.fleet.words(ACCEPT, host)
        return Terminal(words, cwd=self.root, env=environment).answered(PROMPT, answer)

    def test_asked(self) -> None:
        """The report of the host is shown, then the digest, then the question."""
        self.fleet.compare_one("good1")
        for answer, status, now in ((b"\n", 24, OLD), (b"no\n", 24, OLD), (b"y\n", 0, NEW)):
            got, text = self.asked("good1", answer)
            self.assertEqual((got, self.baseline("good1")), (status, now), text)
            place = text.find(b"SHA-256 %s\nMake it" % sha256(NEW).encode())
            self.assertTrue(0 < text.find(b"/c") < place < text.find(PROMPT), text)

    def test_not_compared(self) -> None:
        """What was not compared is not asked for."""
        self.fleet.compare_one("good1")
        os.remove(self.path("remote/good1"))
        self.fleet.compare_one("good1")
        status, text = self.asked("good1", b"y\n")
        self.assertEqual((status, self.baseline("good1")), (18, OLD), text)
        self.assertIn(b"nothing was compared, so nothing is accepted", text)
        self.assertNotIn(PROMPT, text)

    def test_silent(self) -> None:
        """Only a host that differs by silent changes gets a baseline; of the others a line says
        why not."""
        self.fleet.put("quiet", TOUCHED, BEFORE)
        self.fleet.put("equal", OLD, OLD)
        hosts = self.fleet.list_hosts("quiet", "equal", "good1", "lost")
        self.fleet.compare(hosts)
        said = self.fleet.call(ACCEPT, "--silent", hosts)
        self.assertEqual((said.status, said.errors), (0, b""), said)
        lines = said.output_text.splitlines()
        self.assertRegex(lines[0], r"\Agood1 is not accepted: [0-9]+ open\Z")
        self.assertRegex(lines[1], r"\Alost is not accepted: ")
        self.assertIn("hosts/quiet/aide.db.new is the baseline now", lines[2])
        self.assertEqual((self.baseline("quiet"), self.baseline("good1")), (TOUCHED, OLD))
        self.assertFalse(os.path.exists(self.path("store/hosts/equal/aide.db.previous")))
        again = self.fleet.call(ACCEPT, "--silent", "--quiet", hosts)
        self.assertEqual((again.status, again.output), (0, b""), again)

    def test_canary(self) -> None:
        """An accepted canary keeps its baseline for a week: another acceptance would end what it
        accounts for on late hosts."""
        self.fleet.put("www", UPGRADED, BEFORE)
        hosts = self.fleet.list_hosts("www")
        self.fleet.compare("--canary", "www", hosts)
        accepted = self.fleet.call(ACCEPT, "--sha256", sha256(UPGRADED), "www")
        self.assertEqual(accepted.status, 0, accepted)
        self.fleet.put("www", UPGRADED_TOUCHED, None)
        self.fleet.compare("--canary", "www", hosts)
        said = self.fleet.call(ACCEPT, "--silent", hosts)
        self.assertEqual((said.status, self.baseline("www")), (0, UPGRADED), said)
        self.assertRegex(said.output_text, r"\Awww is not accepted: it was a canary within .*\n\Z")
        long_ago = time.time() - 8 * 86400
        os.utime(self.path("store/hosts/www/listed"), (long_ago, long_ago))
        said = self.fleet.call(ACCEPT, "--silent", hosts)
        self.assertEqual((said.status, self.baseline("www")), (0, UPGRADED_TOUCHED), said)

    def test_exchanged(self) -> None:
        """Another database that came after the comparison is refused, and the others go on."""
        for host in ("first", "second"):
            self.fleet.put(host, TOUCHED, BEFORE)
        hosts = self.fleet.list_hosts("first", "second")
        self.fleet.compare(hosts)
        self.write("store/hosts/first/aide.db.new", NEW, 0o600)
        said = self.fleet.call(ACCEPT, "--silent", hosts)
        self.assertEqual(said.status, 24, said)
        self.assertIn("is not the database that was reported", said.error_text)
        self.assertEqual((self.baseline("first"), self.baseline("second")), (BEFORE, TOUCHED))

    def test_late(self) -> None:
        """A comparison of long ago says nothing of what is there now."""
        self.fleet.put("quiet", TOUCHED, BEFORE)
        hosts = self.fleet.list_hosts("quiet")
        self.fleet.compare(hosts)
        state = self.read("store/states/quiet").decode()
        then = self.state("store/states/quiet")["time"]
        self.write("store/states/quiet", state.replace(then, str(int(then) - 2 * 86400)))
        said = self.fleet.call(ACCEPT, "--silent", hosts)
        self.assertEqual((said.status, self.baseline("quiet")), (0, BEFORE), said)
        self.assertIn("quiet is not accepted: was not compared for", said.output_text)

    def test_contradictions(self) -> None:
        for words in (("--silent", "--sha256", "0" * 64), ("--silent", "--keep-open", "/a"), ()):
            said = self.fleet.call(ACCEPT, *words)
            self.assertEqual(said.status, 15, said)

    def test_names(self) -> None:
        """The name of a watched host is as good as a file with its name."""
        for command in ("compare", "report", "list"):
            said = self.fleet.call(f"aide-compare hosts {command}", "good1")
            self.assertIn("good1", said.output_text, said)
            self.assertNotIn("good2", said.output_text, said)
            said = self.fleet.call(f"aide-compare hosts {command}", "nowhere")
            self.assertEqual((said.status, said.output), (18, b""), said)
            self.assertIn("no host of this name is watched", said.error_text)
        self.assertFalse(os.path.exists(self.path("store/hosts/nowhere")))
        self.write("good1", "good2\n")  # A file of this name is the file.
        said = self.fleet.call("aide-compare hosts list", "good1")
        self.assertNotIn("good1", said.output_text, said)
