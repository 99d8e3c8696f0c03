"""What decides on reports is looked up in the old database: a list, the defaults or the table of
severities that it does not have, or knows as another one, is reported and mailed."""
from __future__ import annotations

import base64
import hashlib
import os
import re

from . import mail
from .sandbox import CommandTest, END, HEAD
from .test_without import LOG, files

NEW = files({b"/etc/a": 2, b"/etc/b": 1, LOG: 1})


def list_database(path: bytes, column: bytes, digest: bytes) -> bytes:
    """A database that has a list, with its digest in a column."""
    head = b"@@begin_db\n@@db_spec name attr perm size %s\n" % column
    return head + b"%s 4194340 100644 1 %s\n" % (path, digest) + END


class DecidingTest(CommandTest):
    def test_changed_list(self) -> None:
        """A list that is not as in the old database is reported, even if nothing differs."""
        text = b"/var/log/**\n"
        path = os.fsencode(self.write("list:~", text))
        os.symlink("list:~", self.path("link"))
        rows = [(b"/elsewhere", "sha256", b"0", False), (path, "sha256", b"0", False)]
        for name in ("sha256", "sha512"):
            for other in (b"", b"/etc/**\n"):
                digest = base64.b64encode(hashlib.new(name, text + other).digest())
                rows.append((path, name, digest, bool(other)))
        for file in (self.path("link"), self.write("etc/defaults", "--databases 1.db 2.db\n")):
            rows.append((os.fsencode(file), *rows[-1][1:]))
        for listed, name, digest, is_said in rows:
            # AIDE writes more bytes with escapes than it has to.
            written = list_database(listed.replace(b":~", b"%3A%7E"), name.encode(), digest)
            behind = written.splitlines()[2].replace(digest, b"of-no-entry")
            for database in ("1.db", "2.db"):
                self.write(database, written + behind + b"\n")
            ways = [["link"], ["list:~"], [os.fsdecode(path), "--exclude", "/etc/**"]]
            for words in ways if is_said and name == "sha512" else ways[:1]:
                answer = self.call("aide-compare", "--exclude-from", *words, "1.db", "2.db")
                is_due = is_said and (not listed.endswith(b"link") or "link" in words)
                was_said = b", which decides on reports, has changed since" in answer.errors
                self.assertEqual((answer.status, was_said), (0, is_due), answer)
        answer = self.call("aide-compare", "2.db", "1.db")
        self.assertNotIn(b"has changed", answer.errors, "a pair that the defaults do not name")

    def warned(self, *entries: bytes) -> list[str]:
        """The files of which it is said that the baseline does not have them, if it has these
        entries. A link has a mode of its own."""
        lines = b"".join(b"%s 36 %s 1\n" % tuple(each.split(b" ")) for each in sorted(entries))
        for name in ("1.db", "2.db"):
            self.write(name, HEAD + lines + END)
        answer = self.call("aide-compare", "1.db", "2.db")
        said = re.findall(
            r"([^ ]*), which decides on reports, is not in the base", answer.error_text
        )
        return [os.path.relpath(path, self.root) for path in said]

    def test_missing_list(self) -> None:
        """A list, the defaults or the table of severities that the baseline of this machine does
        not have, though it has a directory above, is reported: somebody can bring one for the time
        of a comparison."""
        self.write("etc/defaults", "--databases 1.db 2.db\n")
        os.makedirs(self.path("else"))
        self.write("else/list", b"/etc/**\n")
        os.symlink("../else/list", self.path("etc/without"))
        paths = ("etc", "else", "share", "etc/defaults", "share/severity.conf", "else/list")
        etc, other, share, defaults, table, listed = (
            os.fsencode(self.path(path)) + b" 100644" for path in paths
        )
        link = os.fsencode(self.path("etc/without")) + b" 120777"
        root = os.fsencode(self.root) + b" 40755"
        every = ["else/list", "etc/defaults", "etc/without", "share/severity.conf"]
        for entries, said in (
            ([b"/x 100644"], []),
            ([root], every),
            ([root, link, listed, defaults, table], []),
            ([etc, listed, defaults, table], ["etc/without"]),
            ([root, listed, defaults, table], ["etc/without"]),
            ([etc, link, defaults], []),
            ([etc], ["etc/defaults", "etc/without"]),
            ([etc, link, defaults, other, share], ["else/list", "share/severity.conf"]),
            ([share, table], []),
        ):
            self.assertEqual(sorted(self.warned(*entries)), said, entries)
        self.warned(root)
        answer = self.call("aide-compare", "--exclude-from", "else/list", "2.db", "1.db")
        self.assertNotIn(b"baseline", answer.errors, "a pair that the defaults do not name")
        mail.prepare(self)
        mail.call(self, "1.db", "2.db")
        title = mail.subject(mail.sent(self))
        self.assertEqual(title, f"{mail.SUBJECT}what decides on reports was changed")

    def test_other_link(self) -> None:
        """A list that is a link: it leads elsewhere than the one of the baseline, to a file that
        has not changed, or by another link."""
        self.write("etc/defaults", "--databases 1.db 2.db\n")
        for name in ("a", "b"):
            self.write(name, f"/{name}/**\n")
        head = b"@@begin_db\n@@db_spec name lname attr perm\n"
        for first, second, is_said in (
            ("a", "a", False),
            ("b", "a", True),
            ("c", "a", False),
            ("c", "b", True),
        ):
            os.symlink(f"../{first}", self.path("etc/without"))
            os.symlink(second, self.path("c"))
            for target in ("../a", "../c"):
                lines = [(self.path("c"), "a"), (self.path("etc/without"), target)]
                text = "".join(f"{path} {link} 6 120777\n" for path, link in lines)
                for name in ("1.db", "2.db"):
                    self.write(name, head + text.encode() + END)
                is_due = is_said or target[3:] != first
                answer = self.call("aide-compare", "1.db", "2.db")
                said = b", which decides on reports, has changed" in answer.errors
                self.assertEqual((answer.status, said), (0, is_due), (first, second, target))
            os.remove(self.path("etc/without"))
            os.remove(self.path("c"))

    def test_defaults_once(self) -> None:
        """Defaults that are one text when they are obeyed, and another when they are looked up."""
        honest = b"--databases o.db n.db\n"
        place = self.write("etc/defaults", honest + b"--exclude /**\n")
        digest = base64.b64encode(hashlib.sha256(honest).digest())
        self.write("o.db", list_database(os.fsencode(place), b"sha256", digest))
        self.write("n.db", NEW)

        def swapped(path: str, what: str) -> bytes:
            from aide_compare.base.files import trusted_text

            text = trusted_text(path, what)
            if path == place:
                self.write("etc/defaults", honest)
            return text

        self.patch("base.parser.trusted_text", swapped)
        answer = self.call("aide-compare", "o.db", "n.db")
        self.assertIn(b"4 changes, all silent", answer.output)
        self.assertIn(b"defaults, which decides on reports, has changed since", answer.errors)
