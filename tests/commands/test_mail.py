"""aide-compare mail: what it sends, when, and its logs; and the queue of what could not be sent."""
from __future__ import annotations

import base64
import fcntl
import hashlib
import os
import subprocess
import time
from typing import Any
from unittest import mock

from tests.commands.viewers.pages import heads_in
from tests.lib.scratch import read

from .mail import COUNTS, MailTest, SUBJECT, TOOL, body, call, check_size, logging
from .mail import many, sent, subject, take_mail, words_of
from .units.calls import misused
from .sandbox import NEW, OLD, sha256
from .test_deciding import list_database

CHANGES = b"""
Open, severity medium:
  removed  /b: drwxr-xr-x
  changed  /c: mode -rw-r--r-- -> -rw-------, size 10 -> 7
  changed  /d: size 1 -> 2
  added    /a: -rw-r--r-- 5 bytes

All changes with their values, as a page (with the options of this job):
"""


class TextsTest(MailTest):
    def test_texts(self) -> None:
        old, new = self.path("old.db"), self.path("new.db")
        for words, to in ((), "root"), (("--to", "a@b.c"), "a@b.c"), (("--to=x, y",), "x, y"):
            message = self.mail("old.db", "new.db", *words)
            assert message
            self.assertEqual((message["To"], subject(message)), (to, SUBJECT + COUNTS))
            form = (message.get_content_type(), message["MIME-Version"], message["Auto-Submitted"])
            self.assertEqual(form, ("text/plain", "1.0", "auto-generated"))
            self.assertTrue(message["Date"])
        text = body(message)
        self.assertIn(CHANGES, text, "the changes of a mail")
        self.assertTrue(text.startswith(b"4 open of 4 changes\n"), text)
        accept = f"aide-compare accept --sha256 {sha256(NEW)} {new} {old}"
        self.assertIn(accept, words_of(text), "the command that accepts")
        self.assertIn(f"aide-compare page {old} {new} > changes.html", words_of(text))
        call(self, "-", "new.db", text=OLD)
        self.assertIn("aide-compare page OLD NEW > changes.html", words_of(body(sent(self))))
        check_size(self, "a mail", text)
        self.assertEqual(self.read("words"), b"-oi -t\n", "how sendmail is called")

    def test_errors(self) -> None:
        """What could not be compared is mailed. What was typed wrong is refused without a mail, and
        a unit or cron that has it says so itself; a fault of the defaults is mailed."""
        self.write("cut.db", NEW[:-9])
        self.write("cut.db.gz", self.read("new.db.gz")[:-1])
        for new, status in (("missing", 18), ("/dev/null", 18), ("cut.db", 24), ("cut.db.gz", 18)):
            self.expect(f"an error of {new}", call(self, "old.db", new), status, b"", b"")
            message = sent(self)
            self.assertEqual(subject(message), SUBJECT + "failure (status %d)" % status)
            self.assertRegex(body(message), rb"\Aaide(-compare)?: ", new)
        self.write("etc/defaults", "--odd\n")
        with open("/dev/full", "wb") as full:
            self.assertEqual(call(self, "old.db", "new.db", stderr=full).status, 15)
        self.assertIn("this option cannot be a default: --odd", words_of(body(sent(self))))
        self.assertEqual(call(self, "--weekly", "Mon").status, 15)
        self.assertIn("this option cannot be a default: --odd", words_of(body(sent(self))))
        os.remove(self.path("etc/defaults"))
        addresses = ["--to", ""], ["--to", "a\nBcc: b"], ["--to", "-x"], ["--to", "é\x01"]
        for words in (*addresses, ["--weekly=Foo"], ["--mail-time", "x"], ["--mail-time", "0"]):
            self.assertEqual(misused(self, TOOL, "old.db", "new.db", *words)[0], 15, words)
        self.assertEqual((call(self, "old.db", "new.db", "more").status, sent(self)), (15, None))
        said = b"two outputs have one place: standard output"
        self.refused(15, said, TOOL, "--json=-", "--page=-", "old.db", "new.db", state="state")
        self.assertIn(said, body(sent(self)))
        with subprocess.Popen("true", stdin=subprocess.PIPE) as gone:
            gone.wait()
            call(self, "--json=-", "old.db", "new.db", stdout=gone.stdin)
        self.assertIn(b"aide-compare: nobody reads standard output", body(sent(self)))

    def test_changed_list(self) -> None:
        """A list that was changed is mailed even if nothing differs; the same list is not."""
        path = os.fsencode(self.write("list", b"/etc/**\n"))
        for text, is_said in ((b"/etc/**\n", False), (b"/var/log/**\n", True)):
            digest = base64.b64encode(hashlib.sha256(text).digest())
            self.write("list.db", list_database(path, b"sha256", digest))
            self.write("same.db", self.read("list.db"))
            answer = call(self, "--exclude-from", "list", "list.db", "same.db")
            self.expect("no difference beside a list", answer, 0)
            message = sent(self)
            title = SUBJECT + "what decides on reports was changed" if is_said else None
            self.assertEqual((subject(message), path in body(message)), (title, is_said))

    def test_test(self) -> None:
        """It says that somebody has to look whether the mail comes."""
        said = b"a test mail for root is on its way: look whether it comes\n"
        self.expect("a test mail", call(self, "--test"), 0, said, b"")
        self.assertEqual(subject(sent(self)), SUBJECT + "test")

    def test_weekly(self) -> None:
        """A heartbeat comes once on its day, or a week after the last: the last result, notes."""
        now = time.time()
        day, other = (time.strftime("%a", time.localtime(now + more)) for more in (0, 2 * 86400))
        words = ["old.db", "old.db.gz", "--state", "weekly.state", "--weekly"]
        for _ in range(2):
            self.assertIsNone(self.mail(*words, other, status=0), "on another day")
        message = self.mail(*words, day, status=0)
        self.assertEqual(subject(message), SUBJECT + "nothing to read")
        self.assertRegex(body(message), rb"\AThe last comparison: no difference.\naide-.* equal")
        self.assertIsNone(self.mail(*words, day, status=0), "only once a day")
        kept = self.path("weekly.state.quiet")
        for label, its_day, seconds in (
            ("a week ago", other, now - 7 * 86400 - 60),
            ("later than now, by a clock that was ahead", day, now + 86400),
        ):
            os.utime(kept, (seconds, seconds))
            message = self.mail("-A", "report_ignore_changed_attrs=p+u", *words, its_day, status=0)
            self.assertEqual(subject(message), SUBJECT + "nothing to read", label)
            self.assertIn(b"\naide-compare: report_ignore_changed_attrs leaves 2 ", body(message))
            self.assertLess(abs(os.stat(kept).st_mtime - time.time()), 60, "the time of now")
        os.utime(kept, (now - 6 * 86400,) * 2)
        self.assertIsNone(self.mail(*words, other, status=0), "less than a week ago")
        self.stub("sendmail", "exit 75")
        self.fails("a heartbeat that does not leave", (*words, day), b"sendmail")
        take_mail(self)
        message = self.mail(*words, day, status=0)
        self.assertEqual(subject(message), SUBJECT + "nothing to read", "the next time it does")
        os.remove(kept)
        os.mkdir(kept)
        os.utime(kept, (0, 0))
        said = b"the file of the heartbeat is a directory"
        self.expect("a directory in its place", call(self, *words, day), 15, b"", said)
        self.assertIsNone(sent(self))

    def test_pages(self) -> None:
        message = self.mail("--attach-page", "old.db", "new.db")
        assert message
        # A reader shows the text, and offers the page: of alternatives it would show the page.
        self.assertEqual(message.get_content_type(), "multipart/mixed")
        parts: list[Any] = list(message.get_payload())
        found = [(each.get_content_type(), each["Content-Disposition"]) for each in parts]
        page = ("text/html", 'attachment; filename="changes.html"')
        self.assertEqual(found, [("text/plain", None), page])
        self.assertIn(b"File changes on ", body(parts[1]), "a page with the host")
        self.assertIn(b"<pre>4 open of 4 changes", body(parts[1]), "for readers without scripts")
        self.assertEqual(len(heads_in(body(parts[1]))), 4)
        self.write("many.db", many(b"/etc/cron.d/%05d" + b'"' * 380, 600))
        message = self.mail("--attach-page", "old.db", "many.db", status=3)
        assert message
        self.assertLessEqual(len(body(message.get_payload()[1])), 1 << 19, "quotes are escaped")
        self.set_names("commands.mail", MAX_PAGE=9000)
        message = self.mail("--attach-page", "old.db", "new.db")
        assert message is not None
        self.assertIn(
            b'"is_whole":false,"remarks":["0 of 4 changes', body(message.get_payload()[1])
        )
        self.patch("show.page.heading_of", mock.Mock(side_effect=OSError(28, "no room")))
        text = body(self.mail("--attach-page", "old.db", "new.db"))
        said = "there is no page: no room"
        self.assertTrue(words_of(text).endswith(said), text)


# Not in the unit that sends mail: set-ID programs fail below filters.
FILTERS = (
    *("NoNewPrivileges", "Restrict", "SystemCall", "PrivateDevices", "LockPersonality"),
    *("ProtectKernel", "ProtectClock", "ProtectHostname", "MemoryDeny", "DynamicUser"),
)
ENDS = {"Success": "mail", "Failure": "failed"}


class QueueTest(MailTest):
    def test_missing(self) -> None:
        """Without sendmail the status is 18, the system log has a line at priority alert, and the
        state is that of the comparison."""
        os.remove(self.path("stubs/sendmail"))
        self.set_names("mail.sending", MAILERS=())
        path = {"PATH": self.path("stubs") + ":/usr/bin:/bin"}
        for words, said, news in (
            ("old.db new.db --state 7", b"ended with status 7", COUNTS),
            ("old.db old.db.gz --state 0", b"ended with status 0", "no difference"),
            ("--send-queue queue", b"", "what waits stays in queue"),
            ("--send-queue queue --unit-failed x", b"", "x failed. Its lines: journalctl -u x"),
        ):
            with logging(self) as lines:
                answer = call(self, *words.split(), environment=path)
            self.expect(words, answer, 18, b"", [b"cannot find sendmail", said])
            self.assertRegex(lines[0].decode(), f"<33>aide-compare mail: cannot find .*{news}")
        for status in ("7", "0"):
            self.assertEqual(self.state(status)["status"], status, "the state without a mailer")

    def test_journal(self) -> None:
        """Without any mail, the system log or systemd's journal gets a line of priority alert."""
        self.stub("sendmail", "exit 75")
        pair = ("old.db", "new.db")
        for name, wanted in (
            ("log", b"<33>aide-compare mail: no mail could be sent"),
            ("journal", b"PRIORITY=1\n"),
        ):
            with logging(self, name) as lines:
                self.fails("no mail but a line", pair, b"has a line at priority alert")
            self.assertTrue(lines[0].startswith(wanted), lines)
            self.assertIn(COUNTS.encode(), lines[0])
        self.fails("no log either", pair, b"no system log either")

    def waiting(self) -> list[str]:
        return sorted(os.listdir(self.path("queue")))

    def test_queue(self) -> None:
        """A mail that waits stays until it is sent."""
        queue = ["--queue", "queue", "--alarm-sent-is-success"]
        self.assertIsNone(self.mail("old.db", "new.db", *queue, status=0))
        (name,) = self.waiting()
        self.assertEqual(os.stat(self.path("queue/" + name)).st_mode & 0o7777, 0o600)
        self.stub("sendmail", "exit 75")
        self.fails("it cannot be sent", ("--send-queue", "queue"), b"cannot send the mail")
        self.assertEqual(self.waiting(), [name], "it waits on")
        for before in ("", "rm queue/*.mail;"):  # Another run may be faster.
            take_mail(self, before)
            message = self.mail("--send-queue", "queue", status=0)
            self.assertEqual((subject(message), self.waiting()), (SUBJECT + COUNTS, []))
            self.mail("old.db", "new.db", *queue, status=0)
        self.stub("sendmail", "sleep 1; echo >> taken")
        reading = os.open(self.path("queue"), os.O_RDONLY)
        self.addCleanup(os.close, reading)
        fcntl.flock(reading, fcntl.LOCK_EX)  # As anybody can who may read the directory.
        both = [self.start(TOOL, "--send-queue", "queue") for _ in range(2)]
        for process in both:
            process.communicate(timeout=60)
            self.assertEqual(process.returncode, 0)
        self.assertEqual(self.read("taken"), b"\n", "one of two runs sends it")

    def test_odd_queue(self) -> None:
        """What is no mail, before one that is, is neither sent nor in its way."""
        call(self, "old.db", "new.db", "--queue", "queue")
        os.symlink("none", self.path("queue/0.1.mail"))
        os.mkdir(self.path("queue/0.2.mail"))
        os.mkfifo(self.path("queue/0.3.mail"))
        os.symlink(self.path("old.db"), self.path("queue/0.4.mail"))
        take_mail(self, "grep -q ^To: /dev/stdin || exit 75;")
        self.write("queue/0.5.mail", "Subject: a\fb: c\n\n")  # No header can have it.
        parts = ["a" * size for size in range(1, 999)]
        deep = [f"Content-Type: multipart/x; boundary={part}\n\n--{part}\n" for part in parts]
        self.write("queue/0.6.mail", "".join(deep))  # A short mail is made of its beginning.
        answer = call(self, "--send-queue", "queue")
        self.expect("no mails", answer, 18, b"", b"aide-compare mail: ")
        self.assertEqual(subject(sent(self)), SUBJECT + COUNTS, ("the mail behind them", answer))
        self.assertEqual(self.waiting(), ["0.%d.mail" % number for number in (1, 2, 3, 4, 5)])

    def test_full_queue(self) -> None:
        for number in range(64):
            self.write("queue/%d.mail" % number, "x")
        with logging(self) as lines:
            words = ("old.db", "new.db", "--queue", "queue")
            self.fails("a full queue", words, b"64 mails wait already")
        alert = f"<33>aide-compare mail: 64 mails wait already in queue: none is sent; .*{COUNTS}"
        self.assertRegex(lines[0].decode(), alert)
        os.symlink(".", self.path("link"))
        self.fails("a link", ("old.db", "new.db", "--queue", "link"), b"link is a link: no mail")

    def test_units(self) -> None:
        """What must not come back: set-ID programs fail below filters, and 1 to 7 of the
        interpreter are no success."""
        sending, daily = (
            read(f"contrib/systemd/{name}.service").splitlines()
            for name in ("aide-compare-mail", "aide-compare")
        )
        self.assertFalse([line for line in sending if line.startswith(FILTERS)])
        self.assertLessEqual({"User=_aide", "KillMode=process", "Type=oneshot"}, set(sending))
        rights = {"User=_aide", "NoNewPrivileges=yes", "CapabilityBoundingSet="}
        self.assertLessEqual(rights, set(daily))
        ends = [f"On{end}=aide-compare-{unit}.service" for end, unit in ENDS.items()]
        self.assertLessEqual(set(ends), set(daily))
        waits = {"After=dailyaidecheck.service", "JobTimeoutSec=10h"}
        self.assertLessEqual(waits, set(daily[: daily.index("[Service]")]), "not for ever")
        self.assertFalse([line for line in daily if line.startswith("SuccessExitStatus")])
        failed = read("contrib/systemd/aide-compare-failed.service")
        self.assertNotRegex(failed, "(?m)^StateDirectory", "which may be the failure")
        limits, fleet = (
            read(f"contrib/{name}.service").partition("\nCapability")[2]
            for name in ("systemd/aide-compare-mail", "fleet/aide-compare-fleet")
        )
        self.assertEqual(fleet.replace("-/var/lib/aide-compare ", ""), limits, "over many hosts")

    def test_short(self) -> None:
        """sendmail that refuses only large mails gets a short one."""
        got, taken = self.path("got"), self.path("sent")
        refuse = f'[ "$(wc -c < "{got}")" -lt 3000 ] || {{ echo "message too big" >&2; exit 75; }}'
        self.stub("sendmail", f'cat > "{got}"; {refuse}; mv "{got}" "{taken}"')
        self.write("many.db", many(b"/f%04d", 500))
        answer = call(self, "empty.db", "many.db")
        self.expect("a short mail", answer, 1, b"", [b"only a short mail was sent", b"too big"])
        text = body(sent(self))
        self.assertIn(b"message too big", text)
        self.assertIn(b"500 open of 500 changes", text)

    def test_room(self) -> None:
        """A TMPDIR of each size: a mail goes out, or the status says that none did; never a
        difference without a mail. Without room to judge the changes, it has their counts."""
        os.mkdir(self.path("small"))
        self.write("half.db", many(b"/f%05d", 4000))
        wanted = {
            1: r"4000 open of 4000 changes|differences \(4000 added\)",
            18: r"failure \(status 18\)",
        }
        for size in range(16, 1000, 96):
            with self.mounted("small", "-t", "tmpfs", "-o", "size=%dk" % size, "none") as is_small:
                if not is_small:
                    self.skipTest("nothing can be mounted here")
                room = {"TMPDIR": self.path("small")}
                answer = call(self, "empty.db", "half.db", environment=room)
                self.assertEqual(os.listdir(self.path("small")), [])
            self.assertIn(answer.status, wanted, (size, answer))
            self.assertRegex(subject(sent(self)), wanted[answer.status], (size, answer))
