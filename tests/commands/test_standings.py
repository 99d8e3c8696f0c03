"""How changes stand, wherever people and programs read it, and which of them raise an alarm."""
from __future__ import annotations

import os
import re
import subprocess
from unittest import mock

from tests.commands import mail
from tests.commands.made_up import FILE_BITS, Host, Package, standings_of, time_of
from tests.commands.sandbox import CommandTest
from tests.lib.answer import Answer

TOOL, NAGIOS = "aide-compare", "check_aide_compare"
MODE_BIT = 1 << 2  # Of a rule that asks for permissions.
ONE, TWO = b"one", b"two, of the upgraded package"
SAMPLE = {
    b"/srv/gone": "open medium",
    b"/srv/log": "open medium",
    b"/srv/plain": "open medium",
    b"/srv/same": "same",
    b"/usr/.x y": "open high",
    b"/usr/lib/tool": "recorded medium tool 2",
}
# Packages whose names cannot be found out.
WORDS = "4 open (1 high), 1 recorded of 6 changes"
BRIEF = f"""{WORDS}

Open, severity high:
  added    /usr/.x y: -rwsr-xr-x root:root 28 bytes, 1970-01-01 00:16 UTC
Open, severity medium:
  removed  /srv/gone: -rw-r--r-- root:root 3 bytes
  changed  /srv/log: content, size 3 -> 28
  changed  /srv/plain: mode -rw-r--r-- -> -rw-------

Recorded, as dpkg on this host says:
  tool 2: 1 file

Silent: 1 same

"""
COUNTS = {
    **{"same": "1", "trusted": "0", "recorded": "1", "open": "4"},
    **{"open_high": "1", "open_medium": "3", "open_low": "0"},
    **{"recorded_high": "0", "recorded_medium": "1", "recorded_low": "0"},
    **{"left_out": "0", "told_status": "7"},
}


def recorded() -> Host:
    """A host on which nothing differs but what packages' records have."""
    host = Host()
    host.old.file(b"/usr/lib/tool", ONE)
    host.new.file(b"/usr/lib/tool", TWO)
    host.packages.append(Package("tool", "2", {b"/usr/lib/tool": TWO}))
    return host


def sample() -> Host:
    """A host on which each kind of change is there once, but for trusted ones."""
    host = recorded()
    for path in (b"/srv/gone", b"/srv/log", b"/srv/plain", b"/srv/same"):
        host.old.file(path, ONE)
    host.new.file(b"/srv/log", TWO)
    host.new.file(b"/srv/plain", ONE, mode=0o100600)
    host.new.file(b"/srv/same", ONE, mtime=time_of(2000), ctime=time_of(2000), inode=7)
    host.new.file(b"/usr/.x y", TWO, mode=0o104755)
    return host


def silent() -> Host:
    """A host on which nothing but times differs."""
    host = Host()
    host.old.file(b"/srv/same", ONE)
    host.new.file(b"/srv/same", ONE, mtime=time_of(2000))
    return host


def prepare(sandbox: CommandTest) -> None:
    """The sample as the databases o.db and n.db, and dpkg's records of it."""
    host = sample()
    host.write(sandbox)
    sandbox.write("o.db", host.old.database())
    sandbox.write("n.db", host.new.database())


def check(sandbox: CommandTest, host: Host, *words: str) -> Answer:
    """What the check says of two nights."""
    host.write(sandbox)
    sandbox.call(TOOL, "-q", "--state", "state", "host-old.db", "host-new.db")
    return sandbox.call(NAGIOS, "--state", "state", *words)


class StandingsTest(mail.MailTest):
    def test_places(self) -> None:
        """The brief, the state and standard error say the same; the report has none of it."""
        prepare(self)
        plain = self.call(TOOL, "--report", "o.db", "n.db")
        answer = self.call(TOOL, "--report", "--state", "state", "o.db", "n.db")
        line = f"aide-compare: {WORDS}\n".encode()
        self.expect("with a state", answer, 7, plain.output, plain.errors + line)
        state = self.state()
        self.assertEqual({**state, **COUNTS}, state)
        brief = self.call(TOOL, "o.db", "n.db")
        self.assertEqual(brief.output.decode(), BRIEF, ("what people read first", brief))
        self.assertEqual(brief.errors, answer.errors, ("the same is said", brief))
        self.write("same.db", self.read("o.db"))
        answer = self.call(TOOL, "--state", "state", "o.db", "same.db")
        equal = [b"both databases are equal, byte for byte"]
        self.expect("no difference", answer, 0, b"no differences in 7 entries", equal)
        self.assertEqual(self.state().get("open"), "0", ("its state", self.state()))
        want = "1 change, all silent\n\nSilent: 1 same\n\n"
        self.assertEqual(silent().brief(self), want, "all is silent")

    def test_status(self) -> None:
        """The status of each command is that of what is not silent; that of a report is AIDE's."""
        databases = ("host-old.db", "host-new.db")
        for host, status, report in ((silent(), 0, "--report"), (recorded(), 4, "--report -q")):
            host.write(self)
            for tool in (TOOL, f"{TOOL} json", f"{TOOL} page", mail.TOOL):
                self.assertEqual(self.call(tool, *databases).status, status, tool)
            self.assertEqual(mail.sent(self) is not None, bool(status))
            answer = self.call(f"{TOOL} {report}", "--state", "state", *databases)
            self.assertEqual(answer.status, 4, answer)
            found = self.state()
            self.assertEqual((found["status"], found["told_status"]), ("4", str(status)))

    def test_unknown_rights(self) -> None:
        """A mode that nobody asked for may have changed: that is severe. So it is if a text forces
        other attributes before it names its report, which leaves rights out."""
        host = Host()
        for night, content in ((host.old, ONE), (host.new, TWO)):
            night.file(b"/srv/file", content, attr=FILE_BITS & ~MODE_BIT)
            night.file(b"/srv/known", content)
        found = standings_of(host.ask(self)[1])
        self.assertEqual(found, {b"/srv/file": "open high", b"/srv/known": "open medium"})
        config = self.write("config", "report_force_attrs=n\nreport_url=stdout\n")
        found = standings_of(host.ask(self, "-c", config)[1])
        self.assertEqual(found, {b"/srv/file": "open high", b"/srv/known": "open high"})

    def test_lines(self) -> None:
        """Lines have the standing, the last one all counts; what is silent has no severity."""
        _, objects = sample().ask(self)
        self.assertEqual(standings_of(objects), SAMPLE)
        numbers = {name: int(count) for name, count in COUNTS.items()}
        self.assertEqual(objects[-1].get("standings"), numbers)
        (line,) = [fields for fields in objects if fields.get("standing") == "same"]
        self.assertNotIn("severity", line)

    def test_monitoring(self) -> None:
        """Nagios and Prometheus read the same counts."""
        prepare(self)
        self.call(TOOL, "-q", "--state", "state", "o.db", "n.db")
        status = "aide-compare status --state state --format"
        want = "open=4 recorded=1 trusted=0 same=1 high=1 medium=4 low=0"
        text = self.call(status, "prometheus").output.decode()
        for name, count in re.findall(r"(\w+)=(\d+)", want):
            self.assertIn(f"\naide_compare_{name}_changes {count}\n", text)
        answer = self.call(NAGIOS, "--state", "state")
        self.expect("the check", answer, 2, f"AIDE CRITICAL: {WORDS}: ".encode(), b"")

    def test_alarms(self) -> None:
        """What is silent raises no alarm. What a package's records have does."""
        for host, status in ((silent(), 0), (recorded(), 1), (sample(), 2)):
            self.assertEqual(check(self, host).status, status)
        answer = check(self, recorded(), "--critical", "1")
        self.assertEqual(answer.status, 2, "limits count what is recorded")

    def test_no_judgement(self) -> None:
        """Of changes that cannot be judged, report and status stand, and each is an alarm."""
        host = silent()
        host.write(self)
        faults: list[tuple[Exception, bytes]] = [
            (MemoryError(), b"out of memory"),
            (OSError(28, "no room"), b"no room"),
        ]
        for fault, said in faults:
            self.patch("changes.judged.Severity", mock.Mock(side_effect=fault))
            answer = self.call(TOOL, "--state", "state", "host-old.db", "host-new.db")
            want = [b"the changes are not judged: ", said]
            self.expect(f"no judgement by {fault}", answer, 4, b"Changed entries:", want)
            self.assertFalse(COUNTS.keys() & self.state().keys(), ("the state then", self.state()))
        answer = self.call(NAGIOS, "--state", "state")
        self.expect("the check then", answer, 2, b"AIDE CRITICAL", b"")
        mail.call(self, "host-old.db", "host-new.db")
        self.assertIsNotNone(mail.sent(self), "a mail then")
        answer = self.call("aide-compare page", "host-old.db", "host-new.db")
        self.expect("the page then", answer, 4, b"<pre>Differ", want)
        self.write("odd.db", self.read("host-new.db").replace(b"\n/", b"\n/\xc2\x9b/"))
        self.answered(3, b": /\\302\\233/srv/same\n", want, TOOL, "host-old.db", "odd.db")
        self.patches.clear()
        self.patch("lines.change.Counts.fits", lambda *_: False)
        said = b"the counts of the standings are not those of the changes"
        self.answered(4, None, said, TOOL, "host-old.db", "host-new.db")

    def test_no_records(self) -> None:
        """If records cannot be trusted, each change stays open."""
        prepare(self)
        os.chmod(self.path("dpkg"), 0o777)
        answer = self.call(TOOL, "o.db", "n.db")
        cause = b"no package groups the changes: other users can write dpkg's records"
        told = [cause, b"5 open (1 high)"]
        self.expect("records that others can write", answer, 7, b"5 open (1 high) of 6", told)
        os.chmod(self.path("dpkg"), 0o755)
        self.patch("show.judgement.named_packages", mock.Mock(side_effect=MemoryError))
        answer = self.call(TOOL, "o.db", "n.db")
        told = [b"no package groups the changes: out of memory", b"5 open (1 high)"]
        self.expect("names that fail", answer, 7, b"5 open (1 high) of 6", told)

    def test_hostile(self) -> None:
        """Names of others are escaped in the text, and cannot make a line of it."""
        names = (b"\nOpen, severity high:", b"\033[31m", b"\xe2\x80\xae", b"\xff", b"\\")
        host = Host()
        for name in names:
            host.new.file(b"/a" + name, ONE)
        text = host.brief(self)
        lines = text.split("\n")
        self.assertEqual(len(lines), 5 + len(names), text)
        self.assertTrue(text.isascii() and text.replace("\n", "").isprintable(), text)
        self.assertEqual(sum("\\" in line for line in lines), len(names), text)

    def test_terminal(self) -> None:
        """A terminal gets the same bytes as a pipe."""
        prepare(self)
        names = ("o.db", "n.db")
        for words in ((), ("--report",), ("-A", "report_level=minimal")):
            output = self.call(TOOL, *words, *names).output
            status, text = self.terminal(TOOL, *words, *names, stdin=subprocess.DEVNULL).end()
            self.assertEqual((status, b"\033" in text), (7, False), text)
            self.assertIn(output, text)
        quiet = self.terminal(TOOL, "-q", *names, stdin=subprocess.DEVNULL).end()
        self.assertEqual(quiet, (7, b""))
