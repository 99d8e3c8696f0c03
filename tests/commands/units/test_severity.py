"""Severities: what each test of a line fits, the shipped table, and tables that are refused."""
from __future__ import annotations

import base64
import os
import re
import tracemalloc
from collections.abc import Iterator
from typing import Any
from unittest import mock

from tests.commands.units.calls import ModuleTest
from tests.lib.scratch import read

from aide_compare.base.words import SEVERITIES
from aide_compare.changes import severity
from aide_compare.changes.severity import RANKS, TESTS, Severity, results_of, shipped_table
from aide_compare.lines.rights import Rights, Side, owner_of_change

TYPES = {0o10: "File", 0o4: "Directory", 0o12: "Link", 0o1: "FIFO"}
TYPES.update({0o2: "Character device", 0o6: "Block device"})
ANNA = 1000
SETUID = base64.b64encode(b"cap_setuid=ep")
# The same as an extended attribute, among others.
CAPABILITY = b"2,user.a,AAAA,security.capability,AQAAAgAgAAA="
# What AIDE writes of an entry without a list: the mode again, and nothing for new files.
OF_MODE = b"user::rw-\ngroup::r--\nother::r--\n"
TO_ANNA = b"user::rwx\nuser:anna:rwx\ngroup::r-x\nmask::rwx\nother::r-x\n"
ANNA_READS = b"user::rwx\nuser:anna:r-x\ngroup::r-x\nmask::r-x\nother::r-x\n"
MASKED = b"user::rwx\nuser:anna:rwx\ngroup::r-x\nmask::r-x\nother::r-x\n"
FILE, PROGRAM, DIRECTORY = 0o100644, 0o100755, 0o40755


def acl_field(access: bytes, default: bytes = b"") -> bytes:
    """The field of a database for these lists."""
    parts = (base64.b64encode(text) if text else b"0" for text in (access, default))
    return b"POSIX," + b",".join(parts)


def entry(
    mode: int,
    uid: int | None = 0,
    gid: int | None = 0,
    acl: bytes | None = None,
    capabilities: bytes | None = None,
    xattrs: bytes | None = None,
) -> Rights:
    """An entry with these rights, None for those that its line does not say."""
    return Rights(TYPES[mode >> 12], mode & 0o7777, uid, gid, acl, xattrs, None, capabilities)


CAPABLE = entry(PROGRAM, capabilities=SETUID)
LISTS_ANNA = entry(FILE, acl=acl_field(TO_ANNA))
LISTS_NEW = entry(DIRECTORY, acl=acl_field(b"", TO_ANNA))
LISTS_READER = entry(FILE, acl=acl_field(ANNA_READS))
LISTS_MASKED = entry(FILE, acl=acl_field(MASKED))
OF_ANNA = entry(FILE, uid=ANNA)
UNKNOWN = entry(FILE)._replace(permissions=None)
OWNERLESS = entry(DIRECTORY, uid=None)
NOBODYS = entry(FILE, uid=None)
NOBODYS_FOR_ANNA = entry(0o100664, uid=None, gid=ANNA)
# A change of rights wherever it is: the entry before, the entry now, and the level below /srv.
RIGHTS: list[tuple[str, Side, Side, str]] = [
    ("a new file", None, entry(FILE, acl=acl_field(b"")), "medium"),
    ("a file that went", entry(FILE), None, "medium"),
    ("a set-user-ID file that came", None, entry(0o104755), "high"),
    ("a set-group-ID file that came", None, entry(0o102755), "high"),
    ("a set-user-ID bit", entry(PROGRAM), entry(0o104755), "high"),
    ("a set-user-ID bit beside another", entry(0o102755), entry(0o106755), "high"),
    ("a set-user-ID file with other content", entry(0o104755), entry(0o104755), "high"),
    ("a set-user-ID file that went", entry(0o104755), None, "high"),
    ("a directory whose group new files get", None, entry(0o42755), "medium"),
    ("a pipe that is a set-user-ID file now", entry(0o14755), entry(0o104755), "high"),
    ("capabilities", entry(PROGRAM), CAPABLE, "high"),
    ("a file that came with capabilities", None, entry(FILE, capabilities=SETUID), "high"),
    ("the same capabilities", CAPABLE, CAPABLE, "high"),
    ("capabilities that went", CAPABLE, entry(PROGRAM), "high"),
    ("capabilities as an attribute", entry(FILE), entry(FILE, xattrs=CAPABILITY), "high"),
    ("another attribute", entry(FILE), entry(FILE, xattrs=b"1,user.a,AAAA"), "medium"),
    ("a link to a file with capabilities", None, entry(0o120777, capabilities=SETUID), "medium"),
    ("a list for anna", entry(FILE), LISTS_ANNA, "high"),
    ("more in a list", LISTS_READER, LISTS_ANNA, "high"),
    ("less in a list", LISTS_ANNA, LISTS_READER, "high"),
    ("the same list", LISTS_ANNA, LISTS_ANNA, "medium"),
    ("a list that went", LISTS_ANNA, entry(FILE), "medium"),
    ("a wider mask", LISTS_MASKED, LISTS_ANNA, "high"),
    ("a list that says the mode", entry(FILE), entry(FILE, acl=acl_field(OF_MODE)), "medium"),
    ("a list of an unknown form", entry(FILE), entry(FILE, acl=b"odd"), "high"),
    ("a list for new files", entry(DIRECTORY), LISTS_NEW, "high"),
    ("a file that all can write", entry(FILE), entry(0o100666), "high"),
    ("a file that came so", None, entry(0o100666), "high"),
    ("a file that was so", entry(0o100666), entry(0o100666), "medium"),
    ("a directory that all can write", entry(DIRECTORY), entry(0o40777), "high"),
    ("a sticky directory now", entry(DIRECTORY), entry(0o41777), "high"),
    ("a sticky directory that came", None, entry(0o41777), "medium"),
    ("a directory that is sticky no more", entry(0o41777), entry(0o40777), "high"),
    ("a link with a list", None, entry(0o120777, acl=b"odd"), "medium"),
    ("root's file given away", entry(FILE), OF_ANNA, "high"),
    ("a file given to root", OF_ANNA, entry(FILE), "medium"),
    ("root's file for a group", entry(FILE), entry(0o100664, gid=ANNA), "high"),
    ("root's file for root's group", entry(FILE), entry(0o100664), "medium"),
    ("root's file for another group", entry(0o100664, gid=5), entry(0o100664, gid=ANNA), "high"),
    ("root's file for its group now", entry(FILE, gid=5), entry(0o100664, gid=5), "high"),
    ("root's file for the same group", entry(0o100664, gid=5), entry(0o100660, gid=5), "medium"),
    ("what anna does with her file", OF_ANNA, entry(0o100664, uid=ANNA, gid=5), "medium"),
    ("a file whose owner is not known", entry(FILE, uid=None), OF_ANNA, "medium"),
    ("what of no known owner a group may write", NOBODYS, NOBODYS_FOR_ANNA, "high"),
    ("root's file whose owner is not known now", entry(FILE), entry(FILE, uid=None), "high"),
    ("a mode that is not known", UNKNOWN, UNKNOWN, "high"),
    ("a mode that is not known now", entry(FILE), UNKNOWN, "high"),
    ("a mode that was not known", UNKNOWN, entry(FILE), "high"),
    ("a set-user-ID file whose mode was not known", UNKNOWN, entry(0o104755), "high"),
    ("a directory whose owner is not known", OWNERLESS, OWNERLESS, "medium"),
    ("another type", entry(FILE), entry(0o120777), "high"),
    ("a device of another user's that came", None, entry(0o20000, uid=ANNA), "high"),
    ("a device of root's that came", None, entry(0o20000), "medium"),
    ("names in a directory", entry(DIRECTORY), entry(DIRECTORY), "low"),
    ("the group of a directory", entry(DIRECTORY), entry(DIRECTORY, gid=ANNA), "medium"),
    ("the mode of a directory", entry(DIRECTORY), entry(0o40700), "medium"),
]
# Other rights on a directory are like those of the files in it.
DIRECTORIES = {
    b"/etc": entry(DIRECTORY, uid=ANNA),
    b"/usr/bin": entry(0o40775, gid=ANNA),
    b"/var": entry(DIRECTORY, acl=acl_field(TO_ANNA)),
    b"/usr/sbin": entry(0o41777),
    b"/usr/local/bin": entry(0o40700),
    b"/etc/cron.d": entry(0o40700),
    b"/": entry(0o40777),
}
SHIPPED = {
    "high": """
        /var/cache/apt/archives/cron_3.0-1_amd64.deb /var/cache/man/.forward /home/anna/.forward
        /etc/profile /root/.profile /etc/init.d/x /usr/local/lib/systemd/x /etc/grub.d/x
        /etc/network/interfaces /etc/logrotate.d/x /usr/share/keyrings/x.gpg /etc/acpi/x
        /etc/skel/.bashrc /var/lib/dpkg/diversions
        /etc/passwd /etc/passwd- /etc/shadow /etc/group /etc/sudoers.d/x /etc/ld.so.preload
        /etc/pam.d/x /etc/ssh/sshd_config /home/a/.ssh/authorized_keys /etc/cron.d/x
        /var/spool/cron/crontabs/root /etc/systemd/system/x.service
        /usr/lib/systemd/system/x.service /usr/lib/modules/6/kernel/x.ko /usr/local/bin/x
        /usr/local/lib/libm.so.6 /usr/local/lib/libm.so /etc/alternatives/editor
        /usr/local/lib/x86_64-linux-gnu/libm.so.6 /usr/lib/aarch64-linux-gnu/libm.so
        /usr/lib64/libm.so.6 /etc/ssl/certs/ca-certificates.crt /etc/ca-certificates.conf
        /usr/local/share/ca-certificates/x.crt /etc/aide/aide.conf /etc/aide-compare/without
        /etc/aide-compare /usr/lib/aide-compare/python/x.py /usr/local/libexec/aide-compare/aide
        /usr/libexec/aide-compare/aide /usr/share/aide-compare/severity.conf
        /usr/local/share/aide-compare/severity.conf /run/systemd/system/x.service
        /run/systemd/system/ssh.service.d/x.conf /run/systemd/generator/x.service
        /run/systemd/system/multi-user.target.wants/x.service /run/udev/rules.d/0.rules
        /run/tmpfiles.d/x.conf /run/modprobe.d/x.conf /run/polkit-1/rules.d/0.rules
        /run/systemd/transient/x.service /run/systemd/user/x.service
        /usr/lib/python3/dist-packages/x.pth /run/user/1000/systemd/user/x.service
        /etc/rc2.d/S01x /var/lib/dpkg/info/x.postinst /etc/sysctl.d/x.conf /etc/ssl/openssl.cnf
        /etc/default/x /etc/exim4/x /etc/perl/x.pm /usr/local/lib/site_perl/x.pm /etc/hosts
        /usr/lib/x86_64-linux-gnu/gconv/gconv-modules.d/x.conf /usr/lib/tmpfiles.d/x.conf
        /usr/share/polkit-1/actions/x.policy /usr/share/git-core/templates/hooks/x
        """,
    "medium": """
        /var/lib/apt/listchanges /var/lib/apt/listchanges-old
        /usr/bin/x /opt/x /srv/x /usr/local/lib/libm.a
        /usr/local/lib/python3.11/libm.so /usr/lib/x86_64-linux-gnu/perl/libm.so
        """,
    "low": """
        /run/user/1000/systemd/units/x /var/log/x /usr/share/doc/x /var/cache/x /run/x
        /run/systemd/units/x /var/backups/x /usr/share/locale/x /var/lib/dpkg/info/x.list
        """,
}
PROGRAMS = (
    *(b"/usr/bin/x", b"/var/log/x", b"/run/x", b"/var/cache/x", b"/usr/lib/x/x", b"/opt/x/x"),
    *(b"/srv/x", b"/usr/share/doc/x", b"/home/anna/x"),
)
# What gives nobody a right once it is removed.
REMOVED = (
    b"/var/cache/apt/archives/x.deb",
    b"/etc/ssl/certs/x.pem",
    b"/usr/share/ca-certificates/mozilla/x.crt",
    b"/usr/local/share/ca-certificates/x.crt",
)
# What comes in packages by dozens, and is high.
CERTIFICATES = (
    b"/etc/ssl/certs/x.pem",
    b"/etc/ssl/certs/ca-certificates.crt",
    b"/etc/ca-certificates.conf",
    b"/usr/share/ca-certificates/mozilla/x.crt",
)
SHIPPED_TABLE = Severity()
TABLE = b"low added,link /opt/*\nhigh any /opt/*\n"


def without(side: Side, names: tuple[str, ...]) -> Iterator[tuple[str, Side]]:
    """A side without each of these rights, with the name of what it lacks."""
    if side is not None:
        for name in names:
            values: dict[str, Any] = {name: "" if name == "type" else None}
            yield name, side._replace(**values)


def lacking(old: Side, new: Side) -> Iterator[tuple[str, Side, Side]]:
    """Both sides, of which one lacks a right that a line has only if a rule asked for it."""
    for name, side in without(old, ("type", "permissions", "group")):
        yield f"the old {name}", side, new
    for name, side in without(new, ("type", "permissions", "user", "group")):
        yield f"the new {name}", old, side


def rank_of(path: bytes, old: Side, new: Side, table: Severity = SHIPPED_TABLE) -> int:
    return table.rank(path, results_of(old, new))


def level_of(path: bytes, old: Side, new: Side, table: Severity = SHIPPED_TABLE) -> str:
    return SEVERITIES[rank_of(path, old, new, table) // RANKS]


class SeverityTest(ModuleTest):
    def test_rights(self) -> None:
        """What is given to whom decides, wherever it is; each line of such rights by itself."""
        for label, old, new, wanted in RIGHTS:
            self.expect(f"severity of {label}", level_of(b"/srv/x", old, new), wanted)
            if wanted == "high":
                found = level_of(b"/usr/share/doc/x", old, new)
                self.expect(f"severity of {label} among texts", found, "high")

    def test_start(self) -> None:
        """No expression is compiled before a path needs it."""
        with mock.patch("re.compile", side_effect=AssertionError("compiled at the start")):
            Severity()

    def test_unknown(self) -> None:
        """What a side does not say makes no change less severe, but for the owner of the old one:
        whoever began to ask for owners sees them come."""
        for label, old, new, _ in RIGHTS:
            for path in (b"/srv/x", b"/usr/bin/x", b"/usr/lib/x/x"):
                level = SEVERITIES.index(level_of(path, old, new))
                for lacked, before, now in lacking(old, new):
                    found = SEVERITIES.index(level_of(path, before, now))
                    self.holds(f"{label} at {path!r}, without {lacked}", found <= level, found)

    def test_directories(self) -> None:
        for path, new in DIRECTORIES.items():
            level = level_of(path, entry(DIRECTORY), new)
            self.expect(f"other rights on {path.decode()}", level, "high")

    def test_shipped(self) -> None:
        for wanted, paths in SHIPPED.items():
            for path in paths.split():
                level = level_of(os.fsencode(path), None, entry(FILE))
                self.expect(f"a file {path}", level, wanted)
        for program in PROGRAMS:
            level = level_of(program, None, entry(PROGRAM))
            self.expect(f"a program {program.decode()}", level, "high")

    def test_certificates(self) -> None:
        """Those of packages come after all else that is high."""
        first = min(rank_of(path, None, entry(FILE)) for path in CERTIFICATES)
        others = map(os.fsencode, SHIPPED["high"].split())
        ranks = [
            *(rank_of(path, None, entry(FILE)) for path in others if path not in CERTIFICATES),
            *(rank_of(path, None, entry(PROGRAM)) for path in PROGRAMS),
        ]
        self.assertLess(max(ranks), first)

    def test_lines(self) -> None:
        """Each line of the shipped table decides on some change that is tried here."""
        shipped = (path for paths in SHIPPED.values() for path in paths.split())
        tried: list[tuple[bytes, Side, Side]] = [
            *((os.fsencode(path), None, entry(FILE)) for path in shipped),
            *((path, None, entry(PROGRAM)) for path in PROGRAMS),
            *((path, entry(FILE), None) for path in REMOVED),
            *((b"/srv/x", old, new) for _, old, new, _ in RIGHTS),
            (b"/usr/bin/x", None, entry(0o120777)),
        ]
        decided = {rank_of(*each) % RANKS for each in tried}
        lines = re.findall("^(?:high|medium|low) .*", read("commands/share/severity.conf"), re.M)
        missing = [line for number, line in enumerate(lines) if number not in decided]
        self.assertEqual(missing, [])

    def test_words(self) -> None:
        """The head of the shipped table explains each test: no manual page does."""
        head = read("commands/share/severity.conf").partition("\n\n")[0]
        named = re.findall(r"^# ([a-z][a-z, -]*[a-z]) {2,}\S", head, re.M)
        self.assertEqual(sorted(", ".join(named).split(", ")), sorted(TESTS))

    def test_removed(self) -> None:
        """A certificate of an authority, or a package, that went gives nobody a right."""
        for path in REMOVED:
            self.expect("a removed one", level_of(path, entry(FILE), None), "low")
            self.expect("an added one", level_of(path, None, entry(FILE)), "high")
            self.expect("another one", level_of(path, entry(FILE), entry(FILE)), "high")

    def test_owners(self) -> None:
        """Nobody but root makes a device, so it is named among root's changes."""
        for mode, wanted in ((FILE, ANNA), (0o20000, 0), (0o60660, 0)):
            found = owner_of_change(None, entry(mode, uid=ANNA))
            self.expect(f"whose change {mode:o} is", found, wanted)

    def test_order(self) -> None:
        """Rights come first, then what logs in, starts or loads code, then programs."""
        ranks = [
            rank_of(b"/srv/x", None, entry(FILE, capabilities=SETUID)),
            rank_of(b"/etc/passwd", entry(FILE), entry(FILE)),
            rank_of(b"/etc/group", entry(FILE), entry(FILE)),
            rank_of(b"/etc/cron.d/x", None, entry(FILE)),
            rank_of(b"/usr/bin/x", None, entry(PROGRAM)),
            rank_of(b"/var/log/x", None, entry(PROGRAM)),
            rank_of(b"/etc/alternatives/x", None, entry(0o120777)),
            rank_of(b"/var/lib/dpkg/info/x.postinst", None, entry(PROGRAM)),
            rank_of(b"/srv/x", None, entry(FILE)),
            rank_of(b"/var/log/x", None, entry(FILE)),
        ]
        self.expect("the order of severities", ranks, sorted(set(ranks)))
        for size, wanted in ((4096, "high"), (4097, "medium")):
            path = b"/etc/cron.d/".ljust(size, b"x")
            level = level_of(path, None, entry(FILE))
            self.expect(f"the level of a path of {size} bytes", level, wanted)

    def test_long_paths(self) -> None:
        """Directories that no file of Linux can be in take no memory, however many a host has."""
        tracemalloc.start()
        self.addCleanup(tracemalloc.stop)
        for number in range(64):
            level_of(b"/%d%b/x" % (number, b"/a" * (1 << 15)), None, entry(FILE))
        self.assertLess(tracemalloc.get_traced_memory()[0], 1 << 20)

    def test_deep_paths(self) -> None:
        """No row looks at more than 64 pieces of a path, each of which takes time if it is new.
        Rights count however deep an entry is."""
        for pieces, wanted in ((62, "high"), (63, "medium"), (1500, "medium")):
            path = b"/a" * pieces + b"/.ssh/x"
            found = level_of(path, None, entry(FILE))
            self.expect(f"a key below {pieces} directories", found, wanted)
            found = level_of(path, None, entry(0o104755))
            self.expect(f"a set-user-ID file below {pieces} directories", found, "high")
            found = level_of(b"/usr/share/doc" + path, None, entry(FILE))
            self.expect(f"a text below {pieces} directories", found, "low")

    def test_tables(self) -> None:
        """Another table, those that are no tables, and a shipped one that is missing."""
        table = Severity(("table", TABLE))
        link = entry(0o120777)
        self.assertEqual(level_of(b"/opt/a", None, link, table), "low")
        self.assertEqual(level_of(b"/srv/a", None, link, table), "medium", "in no line")
        self.assertEqual(level_of(b"/opt/a", None, entry(FILE), table), "high", "its second line")
        rows = b"low any /a/b*\nhigh any /a/b\nlow any /a/c\nhigh any /a/*\nmedium any /a/c\n"
        first = Severity(("table", b"low any /x\n" * 1000 + rows))
        levels = [level_of(path, None, link, first) for path in (b"/a/b", b"/a/c", b"/a/d")]
        self.assertEqual(levels, ["low", "low", "high"], "the first line, whatever its pattern")
        odd = b"urgent any /*,low /opt/*,low odd /opt/*,low any opt,low any,low"
        for line in odd.split(b","):
            self.fails(15, "table, line 1: ", Severity, ("table", line + b"\n"))
        shipped_table.cache_clear()
        with mock.patch.object(severity, "SHIPPED", ("nowhere",)):
            self.fails(18, "severity.conf is missing", Severity)
