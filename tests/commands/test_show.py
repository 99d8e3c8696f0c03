"""aide-compare show, and --only: the changes of some paths, with their values."""
from __future__ import annotations

import base64
import unittest

from tests.commands.viewers.pages import HAS_NODE, seen

from .units.calls import misused
from .sandbox import CommandTest, END, HEAD, NEW, OLD

TOOL = "aide-compare show"
COLUMNS = b"@@begin_db\n@@db_spec name lname attr perm bcount uid gid size mtime inode lcount"
COLUMNS += b" sha256 acl xattrs\n"
ATTR = (1 << 64) - 1
PAIR = ("old.db", "new.db")


class ShowTest(CommandTest):
    def test_kinds(self) -> None:
        for name, text in zip(PAIR, (OLD, NEW)):
            self.write(name, text.replace(END, b"/f%20g 36 100644 1\n" + END))
        for path, lines in (
            ("/a", "open medium added File: /a\n    size       5\n    mode       -rw-r--r--\n"),
            ("/b", "open medium removed Directory: /b\n    size       4096\n"),
            ("/c", "open medium changed File: /c\n    size       10 -> 7\n"),
            ("/b/", "open medium removed Directory: /b\n    size       4096\n"),
            ("/e", "neither database has /e: AIDE has no rule for it, or it is misspelt\n"),
            ("/f g", "no change: all that AIDE measures of /f g is as before\n"),
        ):
            names = [name + ".gz" * (path == "/c") for name in PAIR]
            answer = self.answered(7, None, [b"4 open of 4 changes"], TOOL, path, *names)
            self.assertTrue(answer.output.decode().startswith(lines), answer)
        self.write("same.db", self.read("new.db"))
        self.answered(0, b"no differences", None, TOOL, "/d", "new.db", "same.db")
        self.write("etc/without", "/d\n")
        self.answered(7, b"left out changed File: /d", None, TOOL, "/d", "old.db", "new.db")

    def test_only(self) -> None:
        """All changes of a pattern, by the option of a comparison."""
        answer = self.answered(7, None, None, "aide-compare", "--only", "/[bc]", "old.db", "new.db")
        heads = [line for line in answer.output.splitlines() if line.startswith(b"open")]
        wanted = [b"open medium removed Directory: /b", b"open medium changed File: /c"]
        self.assertEqual(heads, wanted)
        self.refused(15, b"--only", "aide-compare", "--only", "c", "old.db", "new.db")
        twice = ("--only", "/b", "--only", "/c")
        self.refused(15, b"--only is given twice", "aide-compare", *twice, *PAIR)

    def test_values(self) -> None:
        """What changed, as people read it; what did not is left out."""
        digest = base64.b64encode(bytes(range(32)))
        acl = b"POSIX," + base64.b64encode(b"group::r--\n" * 30 + b"other::r--\n") + b",0"
        entry = b"/x 0 %d 104755 8 0 1000 5 MTcwMDAwMDAwMA== 77 1 %s %s 0\n" % (ATTR, digest, acl)
        self.write("one.db", COLUMNS + entry + END)
        other = entry.replace(b" 1000 5 MTcwMDAwMDAwMA==", b" 1000 6 MTcwMDAwMDAwMQ==")
        self.write("two.db", COLUMNS + other.replace(acl, b"0") + END)
        answer = self.call(TOOL, "/x", "one.db", "two.db", environment={"TZ": "Asia/Kathmandu"})
        wanted = [
            "open high changed File: /x",
            "    size       5 -> 6",
            "    mtime      2023-11-14T22:13:20Z -> 2023-11-14T22:13:21Z",
            f"    ACL        {'group::r--, ' * 30}other::r-- -> none",
        ]
        self.assertEqual(answer.output.decode().splitlines(), wanted)

    @unittest.skipUnless(HAS_NODE, "not installed: node")
    def test_words(self) -> None:
        """Brief, page and show have one word for an attribute; the page shows a set-ID mode."""
        entry = b"/x 0 %d 100755 8 0 0 5 MTcwMDAwMDAwMA== 77 1 %s %s 0\n"
        acl = b"POSIX," + base64.b64encode(b"user::rwx\ngroup::r-x\nother::r-x\n") + b",0"
        digests = [base64.b64encode(bytes([number] * 32)) for number in range(2)]
        old = entry % (ATTR, digests[0], b"0")
        new = entry % (ATTR, digests[1], acl)
        new = new.replace(b" 100755 8 0 0 5 ", b" 104755 8 1000 0 6 ").replace(b" 77 1 ", b" 77 2 ")
        self.write("one.db", COLUMNS + old + END)
        self.write("two.db", COLUMNS + new + END)
        pair = ["one.db", "two.db"]
        mode = "mode -rwxr-xr-x -> -rwsr-xr-x"
        brief = self.call("aide-compare", *pair).output.decode()
        words = f"/x: content, {mode}, owner root -> 1000, size 5 -> 6, links 1 -> 2, ACL\n"
        self.assertIn(words, brief)
        rows = seen(self.call("aide-compare page", *pair).output)["entries"]
        self.assertEqual(
            rows[0]["about"], f"size +1, {mode}, owner root -> 1000, links, content, ACL"
        )
        names = ["size", "mode", "owner", "links", "ACL", "SHA256"]
        self.assertEqual([row[0] for row in rows[0]["rows"]], names)
        lines = self.call(TOOL, "/x", *pair).output.decode().splitlines()
        self.assertEqual(sorted(line.split()[0] for line in lines[1:]), sorted(names))

    def test_names(self) -> None:
        """A path is given as on the disk or as it was printed, and no byte of it is a wildcard."""
        self.write("none.db", HEAD + END)
        names = (b"/%2a", b"/a%1b", b"/ab")
        self.write("h.db", HEAD + b"".join(name + b" 36 100644 1\n" for name in names) + END)
        for path, shown in (("/*", b"/*\n"), ("/a\033", b"/a\\033\n"), ("/a\\033", b"/a\\033\n")):
            output = self.call(TOOL, path, "none.db", "h.db").output
            self.assertTrue(output.startswith(b"open medium added File: " + shown), output)
            self.assertEqual(output.count(b"File: "), 1, output)

    def test_refused(self) -> None:
        for words, said in (
            (["c", *PAIR], "argument PATH: it comes first and begins with /: c"),
            (["--only", "/c", "/c", *PAIR], "unrecognized arguments: --only"),
            (["--report", "/c", *PAIR], "unrecognized arguments: --report"),
        ):
            status, text = misused(self, TOOL, *words)
            self.assertEqual((status, said in text), (15, True), (words, text))
        self.refused(15, b"required: PATH", TOOL)
        for words in (["-q", "/c"], ["/c", "-q"], ["--", "/c"]):
            answer = self.answered(7, None, None, TOOL, *words, *PAIR)
            self.assertEqual(answer.output == b"", "-q" in words, words)
        self.answered(7, b"changed File: /c", None, TOOL, "--no-defaults", "/c", *PAIR)
