"""What people read first cannot be flooded: whoever is not root pushes none of root's changes out
of sight.

The hostile paths are those of a user in his home, of a service, and of many users at once.
"""
from __future__ import annotations

import base64
import hashlib
import re
from collections.abc import Callable, Iterator
from typing import Any

from tests.lib.program_test import slow

from . import mail
from .sandbox import CommandTest, END, TIME_LIMIT
from .test_fleet import Fleet
from tests.commands.viewers.pages import data_in

TOOL = "aide-compare"
SPEC = b"@@begin_db\n@@db_spec name attr perm uid gid size mtime inode md5 sha256\n"
ATTR = 1 << 1 | 1 << 2 | 1 << 3 | 1 << 4 | 1 << 5 | 1 << 8 | 1 << 9 | 1 << 12 | 1 << 30
# Root's changes: high ones of each kind, and a medium one; and what a service has that is taken
# over.
ROOTS = [
    *(b"/etc/cron.d/evil", b"/etc/passwd", b"/root/.ssh/authorized_keys", b"/usr/bin/sudo"),
    *(b"/usr/local/sbin/.x", b"/usr/sbin/sshd"),
]
ADDED, REMOVED = ROOTS[0:5:4], ROOTS[3]
SHELL = b"/var/www/html/shell.php"
ERRORS = "store/hosts/www/errors"


Line = tuple[bytes, bytes]


def digest(kind: str, text: bytes) -> bytes:
    return base64.b64encode(hashlib.new(kind, text).digest())


def entry(
    path: bytes,
    content: bytes = b"a",
    mode: bytes = b"100644",
    owner: int = 0,
    mtime: int = 1,
    inode: int = 1,
    attr: int = ATTR,
    sha256: bytes = b"",
) -> Line:
    """A line of a database, with the key of its path before it."""
    fields = [path.replace(b" ", b"%20"), b"%d" % attr, mode]
    fields += [b"%d" % number for number in (owner, owner, len(content), mtime, inode)]
    fields += [digest("md5", content), sha256 or digest("sha256", content)]
    return path.replace(b"/", b"\1"), b" ".join(fields) + b"\n"


def database(entries: list[Line]) -> bytes:
    return SPEC + b"".join(line for _, line in sorted(entries)) + END


def hostile_files(count: int) -> Iterator[Line]:
    """Files with severity high: of one user in one folder, in folders of their own, with long
    names, and of many users."""
    kinds: tuple[Callable[[int], tuple[bytes, int]], ...] = (
        lambda number: (b"/home/anna/.ssh/%06d" % number, 1000),
        lambda number: (b"/home/anna/%06d/.ssh/x" % number, 1000),
        lambda number: (b"/home/bob/.ssh/%s%06d" % (b"n" * 200, number), 1001),
        lambda number: (b"/home/carl/%06d/.ssh/x" % number, 100000 + number),
    )
    for number in range(count):
        path, owner = kinds[number % 4](number)
        yield entry(path, owner=owner)


def numbered(text: str, *numbers: int) -> list[str]:
    return [text % number for number in range(*numbers)]


@slow
class FloodsTest(CommandTest):
    def write_night(self, hostile: list[Line]) -> None:
        """Root's files were changed, added and removed, a service has a new file, and somebody else
        has hostile ones."""
        modes = {path: b"100755" if b"bin/" in path else b"100600" for path in ROOTS}
        old = [entry(path, mode=modes[path]) for path in ROOTS if path not in ADDED]
        new = [entry(path, b"EVIL", modes[path], mtime=2) for path in ROOTS if path != REMOVED]
        new.append(entry(SHELL, owner=33))
        self.write("night.old", database(old))
        self.write("night.new", database(new + hostile))

    def mailed(self, *words: str) -> bytes:
        """The text of the mail about this night, which is short."""
        answer = mail.call(self, "night.old", "night.new", *words, limit=TIME_LIMIT)
        self.expect("a flood", answer, 7, b"", b"")
        text: bytes = mail.body(mail.sent(self))
        mail.check_size(self, "a flooded mail", text)
        return text

    def test_order(self) -> None:
        """The order of the lines: root's before a service's before others', the first few of each
        folder, by rank, changed and removed before added; and the shares."""
        hostile = [entry(b"/home/anna/.ssh/%03d" % number, owner=1000) for number in range(250)]
        hostile += [entry(b"/home/bob/%03d/.ssh/x" % number, owner=1001) for number in range(90)]
        hostile += [entry(b"/opt/root/.ssh/%02d" % number) for number in range(30)]
        hostile += [entry(b"/srv/.ssh/%02d" % number, attr=ATTR & ~8) for number in range(60)]
        self.write_night(hostile + [entry(b"/srv/www/.ssh/x", owner=33)])
        text = self.answered(7, None, None, TOOL, "night.old", "night.new").output.decode()
        high = text.partition("Open, severity high:\n")[2].partition("\nOpen, ")[0]
        names = [re.sub(r": .*", "", line[2:]) for line in high.split("\n")]
        roots = [
            "changed  /etc/passwd",
            "changed  /root/.ssh/authorized_keys",
            *numbered("added    /opt/root/.ssh/%02d", 5),
            *numbered("added    /srv/.ssh/%02d", 5),
            "added    /etc/cron.d/evil",
            "added    /usr/local/sbin/.x",
            "removed  /usr/bin/sudo",
            "changed  /usr/sbin/sshd",
            *numbered("added    /opt/root/.ssh/%02d", 5, 30),
            *numbered("added    /srv/.ssh/%02d", 5, 60),
        ]
        others = [
            "added    /srv/www/.ssh/x",
            *numbered("added    /home/anna/.ssh/%03d", 5),
            *numbered("added    /home/bob/%03d/.ssh/x", 50),
            *numbered("added    /home/anna/.ssh/%03d", 5, 45),
            "and 205 more in /home/anna/.ssh",
            *numbered("and 1 more in /home/bob/%03d/.ssh", 50, 53),
            "and 37 more, 1 of them in /home/bob/053/.ssh",
        ]
        self.assertEqual(names[: len(roots)], roots, "root's changes come first")
        self.assertEqual(names[len(roots) :], others, "then those of others")

    def test_flooded_mail(self) -> None:
        """20,000 hostile paths: the mail names each change of root's with severity high, before
        all of theirs, in 80 lines."""
        mail.prepare(self)
        self.write_night(list(hostile_files(20000)))
        text = self.mailed()
        first = text.find(b"/home/")
        for path in ROOTS:
            self.assertTrue(0 < text.find(path + b": ") < first, (path, text))
        self.assertIn(SHELL + b": ", text)
        self.assertIn(b"20007 open (20006 high) of ", text)
        lines = [line for line in text.split(b"\n") if line.startswith(b"  added    /home/")]
        of_anna = [line for line in lines if re.match(rb"  added    /home/anna/\.ssh/\d", line)]
        self.assertEqual(len(of_anna), 5, "the first few of each folder come first")
        rest = b"  and %d more, " % (20000 - len(lines))
        self.assertIn(rest, text, "what is not listed is counted")

    def test_own_flood(self) -> None:
        """What a user has in one folder hides nothing of severity high that he has in others."""
        hostile = [entry(b"/home/anna/.ssh/%03d" % number, owner=1000) for number in range(250)]
        others = [b"/home/anna/x%02d/.ssh/x" % number for number in range(30)]
        mail.prepare(self)
        self.write_night(hostile + [entry(path, owner=1000) for path in others])
        text = self.mailed()
        for path in others:
            self.assertIn(path + b": ", text)

    def test_flooded_page(self) -> None:
        """A page that has no room for all leaves out what matters least: each change of root's is
        on it, and the others are counted."""
        name = b"/home/bob/.ssh" + b"/" + b"/".join([b"n" * 250] * 14)
        self.write_night([entry(b"%s%06d" % (name, number), owner=1001) for number in range(6500)])
        answer = self.call("aide-compare page", "night.old", "night.new", limit=TIME_LIMIT)
        self.assertLess(len(answer.output), 20000000)
        data = data_in(answer.output)
        self.assertRegex(data["heading"]["remarks"][0], r"^[0-9,]+ of 6,\d+ changes are here")
        names = {head["path"] for head, *_ in data["rows"]}
        self.assertLessEqual({path.decode() for path in ROOTS}, names)

    def test_unjudged(self) -> None:
        """If nobody can judge them, what changed or went comes first; each folder has a share."""
        mail.prepare(self)
        long = b"/home/anna/" + b"n" * 200
        self.write_night([entry(long + b"%04d" % number, attr=ATTR & ~8) for number in range(5000)])
        self.set_names("base.options", MAX_REPORT_BYTES=1 << 20)
        text = self.mailed()
        # The lines of the flood come first, and those that follow were cut.
        for path in ROOTS:
            if path.startswith(b"/etc"):
                self.assertIn(b"  " + path + b"\n", text)
        self.assertEqual(text.count(b"/home/anna/n"), 5, "the share of a folder")
        self.assertIn(b" more\n", text)
        self.assertIn(b"5003 added", text)
        self.assertIn(b"the changes have more than 1048576", text, "why they were not judged")

    def test_crowd(self) -> None:
        """Who is not root makes more changes, or longer lines, than are kept: what is root's is
        judged all the same, and the others are counted by kind and standing."""
        mail.prepare(self)
        long = b"/home/anna/" + b"n" * 200
        crowd = [entry(long + b"%04d" % number, owner=1000) for number in range(5000)]
        crowd += [
            entry(b"/home/bob/" + b"n" * 200 + b"%03d" % number, owner=1) for number in range(9)
        ]
        self.write_night(crowd)
        self.set_names("base.options", MAX_REPORT_BYTES=1 << 20)
        text = self.mailed().replace(b"\n  are too", b" are too")
        for path in ROOTS:
            self.assertIn(path + b": ", text)
        found = re.search(rb"([0-9]+) changes in which no side is root's are only counted", text)
        self.assertIn(int(found[1]) if found else 0, range(2000, 4100), text)
        counts = re.search(rb"^5016 open \(([0-9]+) high\) of 5016 changes", text)
        self.assertTrue(counts and int(counts[1]) > 2000, text)
        answer = self.call("aide-compare page", "night.old", "night.new")
        remarks = " ".join(data_in(answer.output)["heading"]["remarks"])
        self.assertIn("changes in which no side is root's are only counted", remarks)
        answer = self.call("aide-compare json", "night.old", "night.new")
        self.expect("the lines of all", answer, 18, b"", b"than 1048576 bytes")

    def test_crowd_of_host(self) -> None:
        """The same on a host that a collector compares, within a hundredth of the lines."""
        crowd = [entry(b"/home/anna/%04d" % number, owner=1000) for number in range(3000)]
        self.write_night(crowd)
        fleet = Fleet(self)
        fleet.put("www", self.read("night.new"), self.read("night.old"))
        self.set_names("hosts.host_comparison", MAX_JUDGED=10000)
        said = fleet.compare_one("www")
        self.assertRegex(said.output_text, r"www 7 .*: 3007 open \([0-9]+ high\) of 3007 changes")
        report = fleet.call("aide-compare hosts report", self.write("one", "www\n")).output_text
        for path in ROOTS:
            self.assertIn(f" File: {path.decode()}\n", report)
        self.assertIn(b"in which no side is root's are only counted", self.read(ERRORS))

    def test_same_content(self) -> None:
        """An entry with all that it had but times and inode is the same, by a digest of 256 bits of
        a file. Anything else is open."""
        socket, other = b"140666", {"sha256": b"0"}
        rows: list[tuple[str, dict[str, Any], dict[str, Any]]] = [
            ("same", {}, {"inode": 2, "mtime": 2}),
            ("same", {}, {"mtime": 2}),
            ("open", {}, {"inode": 2, "content": b"b"}),
            ("open", {}, {"inode": 2, "mode": b"100600"}),
            ("open", {}, {"inode": 2, "owner": 33}),
            ("same", {}, {"inode": 2, "attr": ATTR ^ 1 << 12}),  # A rule asks for more.
            ("open", {}, {"inode": 2, "sha256": b"0"}),
            ("same", {"mode": socket, **other}, {"inode": 2, "mtime": 2}),
            ("open", {"mode": socket, **other}, {"inode": 2, "owner": 33}),
            ("same", {"mode": b"10600", **other}, {"mtime": 2}),  # A FIFO.
            ("same", {"mode": b"40755", **other}, {"mtime": 2}),
            ("open", {"mode": b"20600", **other}, {"inode": 2}),  # A device, of whatever number.
            ("open", {"mode": b"120777", **other}, {"inode": 2}),  # A link without a target.
        ]
        path = b"/var/spool/postfix/etc/000"
        for standing, old, more in rows:
            self.write("same.old", database([entry(path, **old)]))
            self.write("same.new", database([entry(path, **{**old, **more})]))
            self.call(TOOL, "--state", "state", "same.old", "same.new")
            state = self.state()
            counts = {
                name: state[name] for name in ("same", "open", "recorded") if state[name] != "0"
            }
            self.assertEqual(counts, {standing: "1"}, (old, more))
