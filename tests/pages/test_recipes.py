"""The recipes of docs/GUIDE.md for two databases, and whether each recipe is tried."""
from __future__ import annotations

import glob
import os
import re
import shutil
import unittest

from tests.lib.answer import Answer
from tests.lib.scratch import read
from tests.pages.machine import HEAD, NOBODY, example
from tests.pages.recipes import BEFORE, INTRUDER, METRICS, NEW, OLD, RecipesTest, of_sizes, recipes


class HandsTest(RecipesTest):
    def test_install(self) -> None:
        self.assertEqual(self.text("install"), "packaging/install\n")

    def test_pair(self) -> None:
        self.put_files(example("old.db"), example("new.db"))
        done = self.recipe("pair")
        self.assertEqual((done.status, done.error_text.count(" database: ")), (7, 2))
        self.prints("pair", done.output_text)
        self.write("/etc/aide/compare.conf", "report_level=summary\n")
        done = self.recipe("options")
        self.assertEqual((done.status, done.output_text.count("Summary:")), (7, 2))
        self.assertEqual(len(re.findall(rb"^\S.{17}: /.*$", done.output, re.M)), 22)
        self.put_files(OLD, OLD)
        self.assertEqual(self.recipe("pair").status, 0)

    def test_measured(self) -> None:
        """The group of the recipe has all attributes."""
        columns = "lname size bcount perm uid gid atime mtime ctime inode lcount md5 acl xattrs "
        columns += "selinux e2fsattrs capabilities"
        fields = "x 1 1 100644 1 1 1 1 1 1 1 1B2M2Y8AsgTpgAmY7PhCfg== 1 1 1 1 1"
        head = f"@@begin_db\n@@db_spec name attr {columns}\n"
        self.put_files(f"{head}/a 0{' 0' * 17}\n@@end_db\n", f"{head}/a 4094 {fields}\n@@end_db\n")
        self.assertEqual(self.recipe("pair").status, 4)
        self.assertEqual(self.recipe("measured").status, 0)

    def test_flags(self) -> None:
        """What the page says of two options about flags of the file system."""
        text = "@@begin_db\n@@db_spec name attr e2fsattrs\n/a %d %%s\n@@end_db\n" % (1 << 36)
        self.put_files(text % "1", text % "17")
        words = ["aide-compare", "old.db.gz", "new.db.gz", "-A"]
        self.assertEqual(self.run_words([*words, "report_ignore_e2fsattrs=VNIE"]).status, 4)
        self.assertEqual(
            self.run_words([*words, "report_ignore_changed_attrs=e2fsattrs"]).status, 0
        )

    def test_without(self) -> None:
        self.put_files(
            of_sizes({"/a": 1, "/var/log/x": 1}),
            of_sizes({"/a": 1, "/var/cache/y": 1, "/var/log/x": 2}),
        )
        self.assertEqual(self.recipe("pair").status, 5)
        done = self.recipe("without")
        self.assertEqual(done.status, 0)
        self.prints("without", done.output_text)

    def test_page(self) -> None:
        self.put_files(OLD, NEW)
        self.assertEqual(self.recipe("page"), Answer(b"", b"", 7))
        self.assertIn("/a é", self.text_at("/tmp/page.html"))
        self.assertIn("</html>", self.text_at("/tmp/page.html"))

    def test_lines(self) -> None:
        self.put_files(of_sizes(BEFORE), of_sizes(INTRUDER))
        self.needs("jq")
        self.assertEqual(self.recipe("lines"), Answer(b"", b"", 0))
        self.assertIn('"standing":"left out"', self.text_at("/tmp/lines"))

    def test_order(self) -> None:
        names = ["/a", "/a/b", "/a%20b", "/a-b", "/a.b", "/%C3%BC"]
        lines = [f"{name} 36 100644 1\n" for name in names]
        mixed = HEAD + "".join(lines[at] for at in (3, 0, 5, 2, 4, 1)) + "@@end_db\n"
        self.write("/tmp/mixed.db", mixed)
        self.assertEqual(self.recipe("order").status, 0)
        self.assertEqual(self.text_at("/tmp/sorted.db"), HEAD + "".join(lines) + "@@end_db\n")
        self.write("/tmp/mixed.db", mixed.replace("/a-b", "/%61"))
        done = self.recipe("order")
        self.assertEqual(done.status, 24)
        self.assertIn("appears twice: /a\n", done.error_text)

    def test_metrics_of_debian(self) -> None:
        """The directory of Debian's node exporter is root's, in one of another user."""
        self.needs_root()
        self.put_pair(OLD, NEW)
        self.assertEqual(self.recipe("mail").status, 7)
        os.chown(self.path("/var/lib/prometheus"), NOBODY, NOBODY)
        refused = self.recipe("metrics")
        self.assertEqual(refused.status, 18, refused)
        self.assertTrue(refused.error_text.endswith("Permission denied\n"), refused)
        self.write(
            "/stubs/chown", f'#!/bin/sh\nexec {shutil.which("chown")} {NOBODY} "$2"\n', 0o755
        )
        self.assertEqual(self.recipe("metrics directory"), Answer(b"", b"", 0))
        self.assertEqual(self.recipe("metrics"), Answer(b"", b"", 0))
        self.assertEqual(os.stat(self.path(METRICS)).st_uid, NOBODY)

    def test_mail(self) -> None:
        self.put_pair(OLD, NEW)
        self.assertEqual(self.recipe("mail"), Answer(b"", b"", 7))
        mail = self.taken("mailed") or ""
        for text in ("To: root\n", " open", "multipart", "text/html"):
            self.assertIn(text, mail)
        self.assertEqual(self.state()["added"], "1")


class PagesTest(unittest.TestCase):
    def test_each_recipe_is_tried(self) -> None:
        """Each block has a mark of its own, and a module of recipes names each that is run."""
        paths = glob.glob(os.path.join(os.path.dirname(__file__), "*recipes*.py"))
        text = "".join(map(read, paths)).replace("('", '("').replace("')", '")')
        for mark in recipes():
            kind, _, name = mark.partition(": ")
            self.assertIn(kind, ("try", "prints", "by hand", "not tried"))
            if kind in ("try", "prints"):
                self.assertIn(f'("{name}"', text)
