"""What packages' records on the host have: which changes they group, and which they never do."""
from __future__ import annotations

import hashlib
import os
import random
import sys
from typing import Any
from unittest import mock

from tests.commands import mail
from tests.commands.forked import Forked
from tests.commands.made_up import DIRECTORY_BITS, MORE_ACL, Host, Package, acl_of, base64_of
from tests.commands.made_up import standings_of
from tests.commands.sandbox import END, CommandTest
from tests.commands.test_sorting import MEASURE
from tests.lib.answer import run
from tests.lib.program_test import slow

ONE, TWO, EVIL = b"one", b"two, of the upgraded package", b"EVIL"
BIN, LIB = b"/usr/bin/", b"/usr/lib/"
INFO = b"/var/lib/dpkg/info/"
OPEN, RECORDED = "open", "recorded tool 2"
SPEC = b"@@begin_db\n@@db_spec name attr perm uid gid size\n"
FEW, MANY = 20, 20000
# What many changes may take beside what few take, in kB: each has some 20 bytes in memory.
GROWTH = 4 << 10


def tool(content: bytes = TWO, **more: Any) -> Package:
    """A package that has a program with this content."""
    return Package("tool", "2", {BIN + b"tool": content}, **more)


def upgraded(content: bytes, package: Package | None = tool(), **more: Any) -> Host:
    """A host on which a file of a package has this content now; None if no record has a package."""
    host = Host()
    host.old.file(BIN + b"tool", ONE, mode=0o100755)
    host.new.file(BIN + b"tool", content, mode=0o100755, **more)
    host.packages = [package] if package else []
    return host


def many_files(count: int, size: int) -> bytes:
    """A database of files, of which a few are in each directory."""
    lines = (
        b"/srv/%06d/%s%07d %d 100644 0 0 %d\n"
        % (number // 4, b"n" * 60, number, DIRECTORY_BITS, size)
        for number in range(count)
    )
    return SPEC + b"".join(lines) + END


def many_kinds() -> Host:
    """A host with changes of each kind that records mean something for."""
    host = Host()
    host.both(lambda night: night.link(b"/lib", b"usr/lib"))
    files: dict[bytes, bytes] = {}
    for number in range(12):
        path = LIB + b"tool%02d" % number
        host.old.file(path, ONE)
        host.new.file(path, TWO)
        if number % 3:
            files[path] = TWO
    host.new.link(LIB + b"tool.so", b"tool01").link(LIB + b"evil.so", b"/tmp/evil")
    files.update({b"/lib/bare/tool": TWO, b"/image": TWO})
    host.new.file(LIB + b"bare/tool", TWO).file(b"/image", TWO)
    host.packages.append(Package("tool", "2", files, listed=(LIB + b"tool.so", LIB + b"evil.so")))
    host.packages.append(Package("other", "1", {}, conffiles={LIB + b"tool00": TWO}))
    return host


class RecordedTest(CommandTest):
    def check(self, label: str, host: Host, wanted: dict[bytes, str]) -> None:
        """Checks the standing of paths, and the package of each recorded one."""
        found = standings_of(host.ask(self)[1], ("standing", "package"))
        got = {path: found.get(path, "no change") for path in wanted}
        self.assertEqual(got, wanted, label)

    def test_content(self) -> None:
        """What the records have is recorded, whatever its times and inode, and no other content."""
        elsewhere = Package("tool", "2", {BIN + b"other": TWO})
        conffile = Package("tool", "2", {}, conffiles={BIN + b"tool": TWO})
        gone = tool(state="deinstall ok config-files")
        left = Package("tool", "2", {}, {BIN + b"tool": TWO}, state=gone.state)
        for label, host, want in (
            ("the package's", upgraded(TWO, inode=7), RECORDED),
            ("another one", upgraded(EVIL), OPEN),
            ("no records", upgraded(TWO, None), OPEN),
            ("of another path", upgraded(TWO, elsewhere), OPEN),
            ("of a package that is not there", upgraded(TWO, gone), OPEN),
            ("a conffile", upgraded(TWO, conffile), RECORDED),
            ("a conffile of such a package", upgraded(TWO, left), OPEN),
        ):
            self.check(label, host, {BIN + b"tool": want})

    def test_new(self) -> None:
        """A new file or directory is recorded only if it is root's and gives nobody a right."""
        rows: dict[str, dict[str, Any]] = {
            "root's": {},
            "another user's": {"uid": 33},
            "another group's": {"gid": 33},
            "one that everybody can write": {"perm": "100666"},
            "one that its group can write": {"perm": "100664"},
            "a set-ID one": {"perm": "104755"},
            "one with capabilities": {"capabilities": base64_of(b"cap_setuid=ep")},
            "one with an access list": {"acl": acl_of(MORE_ACL)},
            "one with attributes": {"xattrs": "1,user.x,eA=="},
            "one whose owner was not measured": {"attr": DIRECTORY_BITS & ~8},
        }
        host = Host()
        wanted = {LIB + label.encode(): OPEN if more else RECORDED for label, more in rows.items()}
        for path, more in zip(wanted, rows.values()):
            host.new.file(path, TWO, **more)
        files = dict.fromkeys(wanted, TWO)
        for perm, want in ((0o40755, RECORDED), (0o41777, OPEN)):
            path = LIB + b"directory %o" % perm
            host.new.directory(path, perm)
            wanted[path] = want
        host.packages.append(Package("tool", "2", files, listed=tuple(wanted)))
        self.check("new files and directories", host, wanted)

    def test_names(self) -> None:
        """Directories that are links to those in /usr are followed."""
        host = upgraded(TWO, Package("tool", "2", {b"/bin/tool": TWO}))
        rows: list[tuple[dict[bytes, bytes], str]] = [
            ({}, OPEN),
            ({b"/bin": b"usr/bin"}, RECORDED),
            ({b"/bin": b"x"}, OPEN),
        ]
        for links, want in rows:
            self.patch("changes.usr.link_here", links.get)
            self.check(f"links of this machine: {links}", host, {BIN + b"tool": want})

    def test_links(self) -> None:
        """A link is recorded if a package lists it, and what it points to."""
        host = Host()
        wanted: dict[bytes, str] = {}
        for target in (b"tool.so.2", b"/tmp/evil", b"missing", b"other", b""):
            path = LIB + b"%d.so" % len(wanted)
            host.old.link(path, b"tool.so.1")
            host.new.link(path, target, acl="0", e2fsattrs="0")
            wanted[path] = RECORDED if target == b"tool.so.2" else OPEN
        host.new.file(LIB + b"beside", TWO)
        files = {LIB + b"tool.so.2": TWO, LIB + b"beside": TWO}
        host.packages.append(Package("tool", "2", files, listed=(*wanted, b"")))
        host.packages.append(Package("other", "1", {LIB + b"other": TWO}))
        host.new.link(LIB + b"y", hashlib.md5(TWO).hexdigest().encode())
        host.new.link(LIB + b"z", b"beside")
        files = {LIB + b"y": TWO, LIB + b"z": TWO, LIB + b"beside": ONE}
        host.packages.append(Package("tool-a", "2", files))
        wanted.update({LIB + b"y": OPEN, LIB + b"z": OPEN, LIB + b"beside": RECORDED})
        self.check("links", host, wanted)

    def test_named(self) -> None:
        """Packages that came or went, but for their configuration, are named before all else, also
        on a machine without records."""
        host = Host()
        for name in ("left.list", "left.md5sums", "rose.list", "rose.md5sums", "went.list"):
            host.old.file(INFO + name.encode(), ONE)
        for name in ("came.list", "came.md5sums", "left.list", "rose.list", "rose.md5sums"):
            host.new.file(INFO + name.encode(), TWO)
        lines = host.brief(self).split("\n")
        wanted = ["New packages: came", "Removed packages: left, went", ""]
        self.assertEqual(lines[1:4], wanted, ("the packages", lines[:6]))

    def test_damage(self) -> None:
        """Damaged records group less, and end nothing."""
        draw = random.Random(7)
        host = upgraded(TWO)
        host.write(self)
        files = host.records()
        command = Forked(self, "aide-compare")
        for number in range(40):
            name = draw.choice(sorted(files))
            text = bytearray(files[name])
            for _ in range(draw.randint(1, 4)):
                place = draw.randrange(len(text) + 1)
                other = draw.choice([b"", b"\n", b"\0", b"\xff", b"/", b":"])
                text[place : place + draw.randint(0, 3)] = other
            self.write(f"dpkg/{name}", bytes(text))
            answer = command.call("host-old.db", "host-new.db")
            self.expect(f"damaged records, {number}", answer, 4, b"1 ")
            self.assertNotIn(b"a fault of", answer.errors)
            self.write(f"dpkg/{name}", files[name])
        self.write("dpkg/info/tool.list", b"x" * (1 << 21))  # One line.
        before = "resource.setrlimit(resource.RLIMIT_CPU, (9, 9))"
        self.answered(4, b"1 ", None, "aide-compare", "host-old.db", "host-new.db", before=before)

    def test_rpm(self) -> None:
        """What rpm says of its packages, by a program in rpm's place."""
        os.makedirs(self.path("rpmdb"), exist_ok=True)
        self.set_names(
            "changes.recorded", RPM=self.path("stubs/rpm"), RPM_DATABASES=(self.path("rpmdb"),)
        )
        host = upgraded(TWO)
        host.packages = []
        host.new.link(LIB + b"tool.so", b"tool.so.2").file(LIB + b"ghost", TWO)
        host.new.link(LIB + b"evil.so", b"/tmp/evil").file(LIB + b"fresh", TWO)
        digest = hashlib.sha256(TWO).hexdigest()
        host.new.link(LIB + b"link", digest.encode())
        rows = [f"0\ttool 1:2-3\t{digest}>\t/usr/bin/tool", "(none)", "0\tfresh 1"]
        rows += [f"0\ttool 1:2-3\t>tool.so.2\t/usr/lib/{name}.so" for name in ("tool", "evil")]
        rows.append(f"1\ttool 1:2-3\t{digest}>\t/usr/lib/ghost")
        rows += [f"0\tfresh 1\t{digest}>\t/usr/lib/{name}" for name in ("fresh", "link")]
        self.write("rpm.said", "".join(row + "\n" for row in rows))
        self.stub("rpm", f'[ "$1 $2" = "-qa --dbpath" ] && cat "{self.path("rpm.said")}"')
        wanted = {
            BIN + b"tool": "recorded tool 1:2-3",
            LIB + b"tool.so": "recorded tool 1:2-3",
            **dict.fromkeys((LIB + b"evil.so", LIB + b"ghost", LIB + b"link"), OPEN),
            LIB + b"fresh": "recorded fresh 1",
        }
        self.check("rpm's records", host, wanted)
        self.assertIn("  tool 1:2-3: 2 files, 1 of severity high\n", host.brief(self))
        self.set_names("base.processes", MAX_FILE=1 << 20)
        for stub, said in (
            ("exit 1", b"rpm did not say which packages there are: 1"),
            ("exec cat /dev/zero", b"rpm did not say which packages there are: -25"),
        ):
            self.stub("rpm", stub)
            answer = self.call("aide-compare", "host-old.db", "host-new.db")
            told = [b"no package groups the changes: ", said]
            self.expect(f"an rpm of {stub}", answer, 5, b"6 open", told)


class MailTest(mail.MailTest):
    def lines(self, host: Host) -> list[str]:
        host.write(self)
        mail.call(self, "host-old.db", "host-new.db")
        return mail.body(mail.sent(self)).decode().split("\n")

    def test_too_many(self) -> None:
        """Of more packages than there are lines for, the others are counted. No line is long."""
        host = Host()
        for number in range(1000):
            name = b"package-%04d" % number
            files = {b"/etc/cron.d/%d%026d" % (at, number): TWO for at in range(3)}
            for path in (*files, INFO + name + b".list"):
                host.new.file(path, TWO)
            host.packages.append(Package(name.decode(), "1", files))
        lines = self.lines(host)
        self.assertRegex("\n".join(lines), r"\n  and \d+ packages more: ")
        named = lines[1 : lines.index("")]
        self.assertLessEqual(len(named), 10)
        self.assertRegex(named[-1], r", and \d+ more$")
        self.assertLessEqual(max(map(len, lines)), 80)

    def test_path_of_a_package(self) -> None:
        """Few changes of severity high that records have are named by their paths."""
        lines = self.lines(upgraded(TWO))
        at = lines.index("  tool 2: 1 file, 1 of severity high")
        self.assertEqual(lines[at + 1], "    /usr/bin/tool")


class ManyTest(CommandTest):
    """Many changes: what they cost, and that records say the same of them and of a few."""

    def test_a_few_at_once(self) -> None:
        """Records that are read for a few paths at once say the same; the first members count."""
        host = many_kinds()
        _, objects = host.ask(self)
        wanted = standings_of(objects)
        brief = host.brief(self)
        kinds = {" ".join(words.split()[::2]) for words in wanted.values()}
        self.assertIn("recorded tool", kinds, wanted)
        self.assertEqual(wanted[LIB + b"evil.so"].split()[0], "open")
        names = (b"tool.so", b"bare/tool", b"tool00", b"tool01")
        for path in (b"/image", *map(LIB.__add__, names)):
            self.assertTrue(wanted[path].startswith("recorded"), (path, wanted))
        for size, many in ((1, 0), (1500, 0), (5000, 99)):
            self.set_names("changes.recorded", MAX_LINES=size, MANY=many)
            self.assertEqual(standings_of(host.ask(self)[1]), wanted, size)
            self.assertEqual(host.brief(self), brief, size)
        self.set_names("changes.recorded", MAX_LINES=1, MAX_MEMBERS=2)
        found = standings_of(host.ask(self)[1], ("package",))
        first = [path for path in found if found[path]]
        self.assertEqual(first, [b"/image", LIB + b"bare/tool"], found)

    def test_records_that_end(self) -> None:
        """If a change cannot be read after some were recorded, all are open."""
        host = many_kinds()
        self.patch("changes.recorded.Matcher.has", mock.Mock(side_effect=[True] * 4))
        answer, objects = host.ask(self)
        self.assertIn(b"no package groups the changes", answer.errors)
        found = standings_of(objects, ("standing",))
        self.assertEqual(set(found.values()), {"open"}, found)
        self.assertEqual(objects[-1]["standings"]["open"], len(found))

    @slow
    def test_memory(self) -> None:
        """Many changes take hardly more memory than a few, in each output."""
        many_kinds().write(self)
        peaks: dict[int, dict[str, int]] = {}
        for count in (FEW, MANY):
            self.write("many-old.db", many_files(count, 1))
            self.write("many-new.db", many_files(count, 2))
            peaks[count] = {
                words[0]: self.peak(*words, "many-old.db", "many-new.db")
                for words in (("compare",), ("json",), ("mail", "--queue", self.path("room")))
            }
        for name, peak in peaks[MANY].items():
            few = peaks[FEW][name]
            self.holds(f"{name}: memory", peak < few + GROWTH, (name, few, peak))

    def peak(self, *words: str) -> int:
        """The most memory of a process of a command, in kB."""
        measured = ["-IS", "-c", MEASURE, *self.command("aide-compare", *words)]
        done = run(sys.executable, measured, cwd=self.root, env=self.environment())
        self.assertEqual(done.status, 4, done)
        self.assertNotIn(b"are not judged", done.errors, words)
        return int(done.errors.split()[-1])
