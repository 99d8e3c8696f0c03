"""The commands without their modules, as after a copy of one file or a broken update, say so and
report nothing. And none runs code that other packages have put beside the standard library: a .pth
file there is read by no command."""
from __future__ import annotations

import os
import shutil
import subprocess

from tests.lib.scratch import TOP

from .sandbox import CommandTest, TIME_LIMIT

FRONT = os.path.join(TOP, "commands", "bin", "aide-compare")
# In a name space of its own, so that nothing of the machine changes. Python itself, at the end,
# runs what another package has put there.
SCRIPT = """set -e
mount --make-rprivate /
mount -t tmpfs -o mode=755 none "$1"
printf 'import os; open("%s", "a").write("x")' "$2" > "$1/evil.pth"
for word in compare json page mail accept status sort setup hosts; do
    "$3" "$word" --help > /dev/null 2>&1 || :
done
/usr/bin/python3 -I -c ''
"""


class LostModulesTest(CommandTest):
    def test_lost_modules(self) -> None:
        """Under the name of the command, and under that by which monitoring calls it."""
        self.write("lost/broken/lib/aide_compare/__init__.py", "this is no Python\n")
        for name, status, begin in (
            ("aide-compare", 18, b"aide-compare: cannot start: "),
            ("check_aide_compare", 3, b"AIDE UNKNOWN: "),
        ):
            for place in ("lost/alone", "lost/broken/bin"):
                os.makedirs(self.path(place), exist_ok=True)
                path = shutil.copy(FRONT, self.path(place, name))
                done = subprocess.run([path], capture_output=True, timeout=TIME_LIMIT)
                self.assertEqual(done.returncode, status, done)
                said = done.stdout if status == 3 else done.stderr
                self.assertTrue(said.startswith(begin), done)
                self.assertEqual(done.stdout == b"", status == 18, done)

    def test_others_modules(self) -> None:
        with open(FRONT, "rb") as file:
            self.assertEqual(file.readline(), b"#!/usr/bin/python3 -ISXutf8\n")
        words = ["/usr/bin/python3", "-c", "import site; print(*site.getsitepackages())"]
        found = subprocess.run(words, capture_output=True, check=True, text=True).stdout.split()
        folders = [path for path in found if os.path.isdir(path)]
        if os.getuid() != 0 or not shutil.which("unshare") or not folders:
            self.skipTest("it needs root, and unshare")
        mark = self.path("ran")
        words = ["unshare", "-m", "sh", "-c", SCRIPT, "sh", folders[0], mark, FRONT]
        done = subprocess.run(words, capture_output=True, timeout=TIME_LIMIT)
        if done.returncode:
            self.skipTest("nothing can be mounted here")
        self.assertEqual(self.read("ran"), b"x", "only Python itself runs another package's code")
