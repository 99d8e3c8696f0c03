"""aide-compare accept: by a digest, by an answer on a terminal, and except what stays open."""
from __future__ import annotations

import gzip
import os
import random
import re
import shutil
import time
from collections.abc import Callable
from typing import Any

from .accepting import AcceptingTest, BASE, DIGEST, DONE, FILES, OLDER, TOOL, contents, fresh
from .units.calls import misused
from .sandbox import AS_NOBODY, END, HEAD, NEW, NOBODY, OLD, sha256


class AcceptTest(AcceptingTest):
    def test_digests(self) -> None:
        for digest in (DIGEST, DIGEST.upper(), DIGEST[:16], DIGEST[:44]):
            fresh(self)
            self.accepts(b"base/aide.db.new is the baseline now: base/aide.db\n", digest)
            self.assertEqual(contents(self), DONE, digest)
        self.accepts(b"the baseline already")
        self.assertEqual(contents(self), DONE, "the former one after the second time")
        words = ("--sha256", sha256(OLD), "base/aide.db.previous", "base/aide.db")
        self.answered(0, b"the baseline now", b"", TOOL, *words)
        self.assertEqual(contents(self)[:2], (OLD, NEW), "back to the former baseline")

    def test_first(self) -> None:
        for name in ("aide.db", "aide.db.previous"):
            os.remove(self.path("base/" + name))
        self.accepts(b"this is the first baseline")
        self.assertEqual(contents(self), (NEW, None, NEW, 2))
        self.assertEqual(os.stat(self.path("base/aide.db")).st_mode & 0o7777, 0o600)

    def test_unreadable(self) -> None:
        """A former baseline that is damaged, or that the caller may not read, is kept."""
        unknown = b"former: SHA-256 unknown, it cannot be read, kept as"
        self.write("base/aide.db", gzip.compress(OLD)[:-9], 0o600)
        self.accepts(unknown)
        self.needs_root()
        fresh(self, NOBODY)
        self.accepts(unknown, before=AS_NOBODY)

    def test_refusals(self) -> None:
        told = [sha256(OLD).encode(), DIGEST.encode(), b"refused: base/aide.db.new"]
        self.refuses(24, told, sha256(OLD))
        name = b"aide-compare accept: "
        self.refuses(15, name, DIGEST[:15])
        for digest in ("x" * 64, "", DIGEST + "0", "A" * 42 + "B="):
            self.assertEqual(misused(self, TOOL, "--sha256", digest, *FILES)[0], 15, digest)
        self.refuses(18, name, DIGEST, "--max-size", "20")
        usual = f"--sha256 {DIGEST} {' '.join(FILES)}"
        for words in ("--state odd", "--odd", "--max-size x", "--keep kept", "--trusted o.db n.db"):
            found = misused(self, TOOL, *words.split(), *usual.split())
            self.assertEqual(found[0], 15, (words, found))
        for files in (FILES[:1], (FILES[0], "base/"), (FILES[0], "base/..")):
            self.refused(15, name, TOOL, "--sha256", DIGEST, *files)
        told_of_missing = b"cannot open the new database missing"
        self.refused(18, told_of_missing, TOOL, "--sha256", DIGEST, "missing", FILES[1])
        self.assertEqual(contents(self), (OLD, OLDER, NEW, 3), "what is there after all refusals")

    def test_full_output(self) -> None:
        told = b"is the baseline, but that could not be printed"
        with open("/dev/full", "wb") as full:
            self.answered(18, None, told, TOOL, "--sha256", DIGEST, *FILES, stdout=full)

    def test_places(self) -> None:
        """No baseline is what is no regular file, or in a folder where everybody can write."""
        makers: list[tuple[bytes, Callable[[str], object]]] = [
            (b"a link", lambda path: os.symlink("aide.db.new", path)),
            (b"a FIFO", os.mkfifo),
            (b"a directory", os.mkdir),
        ]
        for name, make in makers:
            fresh(self)
            os.remove(self.path("base/aide.db"))
            make(self.path("base/aide.db"))
            self.refuses(18, b"it is " + name)
        fresh(self)
        for mode in (0o775, 0o777, 0o1777):
            os.chmod(self.path("base"), mode)
            self.refuses(18, b"more than one user can write")

    def test_directory_of_former(self) -> None:
        """A directory in the place of the former baseline is found before anything changes."""
        os.remove(self.path("base/aide.db.previous"))
        os.mkdir(self.path("base/aide.db.previous"))
        said = b"cannot write the baseline base/aide.db: aide.db.previous is a directory\n"
        self.refuses(18, said)
        self.refuses(18, said)
        words = ("--sha256", sha256(NEW), "new.db", "x" * 252)
        self.refused(18, b"cannot write the baseline xxx", "aide-compare accept", *words)

    def test_full_disk(self) -> None:
        """A baseline that cannot be replaced for want of room stays, alone."""
        shutil.rmtree(self.path("base"))
        os.mkdir(self.path("base"))
        with self.mounted("base", "-t", "tmpfs", "-o", "size=64k,mode=755", "none") as is_small:
            if not is_small:
                self.skipTest("nothing can be mounted here")
            self.write("base/aide.db", OLD, 0o600)
            lines = (b"/x%05d 36 100644 1\n" % number for number in range(9000))
            large = HEAD + b"".join(lines) + END
            self.write("large.db", large)
            words = ("--sha256", sha256(large), "large.db", "base/aide.db")
            self.refused(18, b"No space left on device", TOOL, *words)
            self.assertEqual(os.listdir(self.path("base")), ["aide.db"], "it stays alone")
            self.assertEqual(self.read("base/aide.db"), OLD, "as it was")

    def test_at_once(self) -> None:
        """Of five at once each accepts: a locked folder is waited for."""
        runs = [self.start(TOOL, "--sha256", DIGEST, *FILES) for _ in range(5)]
        for run in runs:
            run.communicate()
        self.assertEqual([run.returncode for run in runs], [0] * 5)
        self.assertEqual(contents(self), DONE)


PROMPT = b"? [y/N] "


class AcceptAskedTest(AcceptingTest):
    def asked(self, answer: bytes, words: tuple[str, ...] = FILES) -> tuple[int, bytes]:
        """The status and the text of a command whose question, if it asks one, gets an answer."""
        return self.terminal(TOOL, *words).answered(PROMPT, answer)

    def test_yes(self) -> None:
        """What differs is shown, then the digest, then the question."""
        for answer in (b"y\n", b"yes\n", b" Y \n"):
            fresh(self)
            status, text = self.asked(answer)
            self.assertEqual((status, contents(self)[:2]), (0, (NEW, OLD)), (answer, text))
            place = text.find(b"SHA-256 %s\nMake it" % DIGEST.encode())
            self.assertTrue(0 < text.find(b"  changed  /c: ") < place < text.find(PROMPT), text)

    def test_no(self) -> None:
        before = contents(self)
        for answer in (b"\n", b"n\n", b"no\n", b"yesterday\n", b"y y\n", b"\x04"):
            status, text = self.asked(answer)
            self.assertEqual((status, contents(self)), (24, before), (answer, text))
            self.assertIn(b"nothing is accepted", text, answer)

    def test_typed_ahead(self) -> None:
        """What was typed before the question was there is no answer."""
        terminal = self.terminal(TOOL, *FILES)
        terminal.type(b"y\n" * 5)
        terminal.read(PROMPT)
        time.sleep(0.5)
        terminal.type(b"n\n")
        status, text = terminal.end()
        self.assertEqual((status, contents(self)[0]), (24, OLD), text)

    def test_exchanged(self) -> None:
        """Another database that came after the question was asked is not accepted."""
        terminal = self.terminal(TOOL, *FILES)
        terminal.read(PROMPT)
        self.write("base/aide.db.new", OLDER, 0o600)
        terminal.type(b"y\n")
        status, text = terminal.end()
        self.assertEqual((status, contents(self)[0]), (24, OLD), text)
        self.assertIn(b"is not the database that was reported", text)

    def test_configuration(self) -> None:
        """Without names they are those of the defaults."""
        self.write("etc/defaults", f"--databases {self.path(FILES[1])} {self.path(FILES[0])}\n")
        status, text = self.asked(b"y\n", ())
        self.assertEqual((status, contents(self)[0]), (0, NEW), text)

    def test_refused(self) -> None:
        """Nobody is asked without a terminal on both sides, or if nothing was compared."""
        self.refused(15, b"give --sha256 DIGEST", TOOL, *FILES, text=b"y\n")
        self.refused(15, b"unrecognized arguments: --yes", TOOL, "--yes", *FILES)
        status, text = self.asked(b"y\n", ("-q", *FILES))
        self.assertEqual((status, PROMPT in text), (15, False), text)
        for new in (HEAD + b"/a\n" + END, b""):
            self.write("base/aide.db.new", new, 0o600)
            status, text = self.asked(b"y\n")
            self.assertEqual((status, PROMPT in text, contents(self)[0]), (24, False, OLD), text)

    def test_owner(self) -> None:
        """In the directory of another user the comparison has his rights, and so has the work."""
        self.needs_root()
        fresh(self, NOBODY)
        os.chown(self.path("base/aide.db"), NOBODY, NOBODY)
        status, text = self.asked(b"y\n")
        self.assertEqual((status, contents(self)[0]), (0, NEW), text)
        self.assertEqual(os.stat(self.path("base/aide.db")).st_uid, NOBODY)


KEPT = HEAD + b"/b 36 40755 4096\n/c 36 100644 10\n/d 36 100644 2\n" + END
OPEN = ("--keep-open", "/[ab]", "--keep-open", "/c")


def database(entries: dict[str, int]) -> bytes:
    """A database of these paths and sizes, in the order of paths."""
    ordered = sorted(entries.items(), key=lambda entry: entry[0].split("/"))
    lines = (b"%s 36 100644 %d\n" % (path.encode(), size) for path, size in ordered)
    return HEAD + b"".join(lines) + END


def random_path(draw: random.Random) -> str:
    names = [draw.choice(["a", "b", "a-b", "etc", "a.b"]) for _ in range(draw.randint(1, 4))]
    return "/" + "/".join(names)


class AcceptPartlyTest(AcceptingTest):
    def test_unsound(self) -> None:
        """What the program refuses becomes no baseline, also with its digest. Nothing moves."""
        told = b"refused: base/aide.db.new is no sound database\n"
        for text, is_packed in (
            (bytes(range(256)) * 20, False),
            (NEW[:60], True),
            (NEW[: -len(END)], False),
            (NEW.replace(b"/a 36", b"/e 36"), True),
            (b"", False),
            (b"", True),
        ):
            self.write("base/aide.db.new", gzip.compress(text) if is_packed else text, 0o600)
            self.refuses(24, told, sha256(text))

    def test_late_failure(self) -> None:
        """A baseline that is a mount point cannot be exchanged: its former copy is as before."""
        self.write("source", OLD)
        with self.mounted("base/aide.db", "--bind", self.path("source")) as is_there:
            if not is_there:
                self.skipTest("nothing can be mounted here")
            self.refuses(18, b"cannot write the baseline base/aide.db: Device")

    def test_open(self) -> None:
        """An added, a removed and a changed path stay open; all else is accepted. Once more,
        nothing changes."""
        entries = b"it contains the new entries, and of what stays open the former ones: "
        counts = entries + b"1 added, 1 removed, 1 changed\n"
        told = [b"now, except what stays open: ", sha256(KEPT).encode(), counts]
        for owner in (None, NOBODY):
            with self.subTest(owner=owner):
                if owner:
                    self.needs_root()
                fresh(self, owner)
                self.accepts(told, sha256(NEW), *OPEN)
                self.assertEqual(contents(self), (KEPT, OLD, NEW, 3))
                # Packed as the new one, without a name or a time.
                self.assertEqual(self.read(BASE + "aide.db")[:8], b"\x1f\x8b\x08" + bytes(5))
                words = (*([] if owner is None else ["--user", "nobody"]), *FILES[::-1])
                self.answered(7, b"  added    /a: ", b"3 open of 3 changes", "aide-compare", *words)
                self.accepts(b"the baseline already, except what stays open", sha256(NEW), *OPEN)
                self.assertEqual(contents(self), (KEPT, OLD, NEW, 3), "nothing changes")
                self.accepts(b"the baseline now: ")
                self.assertEqual(contents(self), (NEW, KEPT, NEW, 3), "then the rest")

    def test_empty_lines(self) -> None:
        """Empty lines and comments, which AIDE may write, stay where they are in the new one."""
        wanted = [text for text in KEPT.split(b"\n") if text.startswith(b"/")]
        for line in (b"\n", b"  \t \n", b"# a comment\n"):
            new = NEW.replace(b"/c 36", line + b"/c 36")
            self.put(OLD.replace(b"/c 36", line + b"/c 36"), new)
            self.accepts(b"except what stays open", sha256(new), *OPEN)
            found = self.read(BASE + "aide.db")  # Plain as the new one.
            self.assertEqual([text for text in found.split(b"\n") if text[:1] == b"/"], wanted)

    def test_refused(self) -> None:
        """What would not mean what it says: nothing moves."""
        columns = re.sub(rb"(\S+) (\S+)\n", rb"\2 \1\n", NEW)
        cut = b"refused: base/%s is no sound database"
        for old, new, told in (
            (OLD, columns, b"has other columns (@@db_spec) than the baseline"),
            (OLD[: -len(END)], NEW, cut % b"aide.db"),
            (OLD, NEW[: -len(END)], cut % b"aide.db.new"),
        ):
            self.put(old, new)
            self.refuses(24, told, sha256(new), "--keep-open", "/a")
        fresh(self)
        told = b"nothing that differs is kept open by /x\n"
        self.refuses(24, told, sha256(NEW), "--keep-open", "/a", "--keep-open", "/x")
        told = b"is not the database that was reported"
        self.refuses(24, told, sha256(OLD), "--keep-open", "/a")
        for words in ("--keep-open a", "--keep-open=", "--rules r", "--explained-only"):
            given = ("--sha256", sha256(NEW), *words.split(), *FILES)
            self.assertEqual(misused(self, TOOL, *given)[0], 15, words)
        os.remove(self.path(BASE + "aide.db"))
        self.refuses(18, b"so nothing stays open", sha256(NEW), "--keep-open", "/a")

    def test_unsound_merge(self) -> None:
        """What is merged is read by the program before it becomes the baseline."""
        fresh(self)

        def cut(*words: Any) -> Any:
            from aide_compare.compare.kept_open import keep_open

            merged = keep_open(*words)
            os.ftruncate(merged.copy.fd, 60)
            return merged

        self.patch("commands.accept.keep_open", cut)
        self.refuses(24, b" is no sound database\n", sha256(NEW), *OPEN)

    def test_many(self) -> None:
        """Random databases against maps: the new one, with the old entries that stay open."""
        draw = random.Random(1)
        rows = (("/*/a*", r"/[^/]*/a[^/]*"), ("/etc/**", r"/etc/.+"))
        for number, (pattern, expression) in enumerate(2 * rows):
            paths = [random_path(draw) for _ in range(270)]
            old, new = (
                {path: draw.randint(1, 3) for path in draw.sample(paths, 180)} for _ in range(2)
            )
            is_open = re.compile(expression).fullmatch
            self.put(database(old), database(new))
            self.accepts(None, sha256(database(new)), "--keep-open", pattern)
            wanted = {path: size for path, size in new.items() if not is_open(path)}
            wanted.update((path, size) for path, size in old.items() if is_open(path))
            self.assertEqual(contents(self)[0], database(wanted), f"random databases, {number}")
