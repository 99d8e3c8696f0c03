"""What an intruder does to come back, on a real night of rotation: 169 changes in tests/nights. All
of them are open, but data in places that are left out by default; and mails name them where they
are read.

In the text a heading has the severity that is wanted, or `left`, and what was done: a file with
this mode, a link with its target, other columns, another content, or a removal.
"""
from __future__ import annotations

from typing import Any, NamedTuple

from tests.commands import mail
from tests.commands.made_up import Host, Night, standings_of
from tests.commands.test_nights import database_of, read_night
from tests.lib.scratch import read

ONE, EVIL = b"one\n", b"evil\n"
NIGHT = "n3-rotate"
AT_ONCE = 20
FIRST = 40
LEFT = "left"
# What gives root's rights to somebody by itself.
RIGHTS = ("104755", "capabilities=", "acl=", "uid=", "gid=", "perm=")


class Mark(NamedTuple):
    path: bytes
    severity: str
    form: str


def marks() -> list[Mark]:
    found = []
    severity = form = ""
    for line in read("tests/nights/persistence.txt").splitlines():
        if line.startswith("@@ "):
            _, severity, form = line.split(" ")
        else:
            found.append(Mark(line.encode(), severity, form))
    return found


def rounds(wanted: list[Mark], size: int) -> list[list[Mark]]:
    """The marks, so many at a time, and no path twice in one round."""
    waiting = list(wanted)
    found: list[list[Mark]] = []
    while waiting:
        chosen: dict[bytes, Mark] = {}
        for mark in waiting:
            if len(chosen) < size:
                chosen.setdefault(mark.path, mark)
        found.append(list(chosen.values()))
        waiting = [mark for mark in waiting if mark not in found[-1]]
    return found


def put(host: Host, mark: Mark) -> None:
    path, form = mark.path, mark.form
    is_directory = path in (b"/usr/bin", b"/etc/cron.d")
    if form.startswith("1") and "=" not in form:
        octal, uid, gid = (form + ":0:0").split(":")[:3]
        host.new.file(path, EVIL, int(octal, 8), uid=int(uid), gid=int(gid))
    elif form.startswith("->"):
        host.new.link(path, form[2:].encode())
    elif form == "removed":
        host.old.file(path, ONE, 0o100755 if b"/bin/" in path else 0o100644)
        host.new.entries.pop(path, None)
    elif form == "content":
        mode = 0o100755 if b"/bin/" in path else 0o100644
        host.old.file(path, ONE, mode)
        host.new.file(path, EVIL, mode)
    else:
        more: dict[str, Any] = dict(pair.split("=", 1) for pair in form.split(";"))
        nights: list[tuple[Night, dict[str, Any]]] = [(host.old, {}), (host.new, more)]
        for night, columns in nights:
            if is_directory:
                night.directory(path, **columns)
            else:
                night.file(path, ONE, 0o100755, **columns)


def host_with(wanted: list[Mark]) -> Host:
    """The real night, with these marks."""
    host = Host()
    parts = read_night(NIGHT)
    for night, side in ((host.old, "old"), (host.new, "new")):
        fill(night, database_of(parts, side))
    for mark in wanted:
        put(host, mark)
    return host


def fill(night: Night, text: str) -> None:
    for line in text.splitlines():
        if line.startswith("/"):
            fields = line.split(" ")
            night.entries[fields[0].encode()] = dict(zip(night.columns, fields))


class PersistenceTest(mail.MailTest):
    def setUp(self) -> None:
        super().setUp()
        self.write("without", read("contrib/aide/debian.without"))

    def body(self, wanted: list[Mark]) -> list[str]:
        """The lines of the mail of a night with these marks."""
        host_with(wanted).write(self)
        mail.call(self, "--exclude-from", "without", "host-old.db", "host-new.db")
        message = mail.sent(self)
        return mail.body(message).decode().split("\n") if message else []

    def test_quiet(self) -> None:
        """The night alone mails nothing."""
        self.assertEqual(self.body([]), [], "a rotation")

    def test_open(self) -> None:
        """Each of them is open and as severe as it should be, but for data that is left out."""
        wanted = marks()
        self.assertEqual(len(wanted), 169)
        for marked in rounds(wanted, len(wanted)):
            _, objects = host_with(marked).ask(self, "--exclude-from", "without")
            found = standings_of(objects)
            for path, severity, form in marked:
                with self.subTest(path=path, form=form):
                    if severity == LEFT:
                        self.assertEqual(found[path], "left out")
                    else:
                        self.assertEqual(found.get(path), f"open {severity}")

    def test_named(self) -> None:
        """A mail of twenty of them names each in its first lines; one of all of them those that
        give root's rights by themselves."""
        wanted = [mark for mark in marks() if mark.severity != LEFT]
        for marked in rounds(wanted, AT_ONCE):
            first = self.body(marked)[:FIRST]
            for mark in marked:
                self.assertTrue(names(first, mark.path), (mark, first))
        lines = self.body(rounds(wanted, len(wanted))[0])
        self.assertLessEqual(len(lines), 80 + 1)
        self.assertLessEqual(max(map(len, lines)), 80)
        for mark in rounds(wanted, len(wanted))[0]:
            if mark.form.startswith(RIGHTS):
                self.assertTrue(names(lines[:FIRST], mark.path), (mark, lines))


def names(lines: list[str], path: bytes) -> bool:
    """Whether a line names a path, and not only one below it."""
    word = path.decode()
    return any(line.split("  ")[-1].split(": ")[0].strip() == word for line in lines)
