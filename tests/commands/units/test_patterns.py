"""Which paths a pattern means: rows, and what a hostile path costs."""
from __future__ import annotations

import os
import subprocess
import sys
import unittest

from tests.lib.scratch import TOP

from aide_compare.base.paths import Pattern

# Hostile paths, in a process that may take so many seconds of processor time.
HOSTILE = """import resource, sys
sys.path.insert(0, sys.argv[1])
from aide_compare.base.paths import Pattern
resource.setrlimit(resource.RLIMIT_CPU, (20, 20))
hostile = [(b"/" + b"*a" * 20 + b"b", b"/" + b"a" * 4000)]
hostile += [(b"/" + b"**/a/" * 20 + b"b", b"/b" + b"/a" * 2000)]
print(*(Pattern(text).matches(path[1:].split(b"/")) for text, path in hostile))
"""

# A pattern, a path, and whether the one means the other.
PATTERNS = [
    (b"/a", b"/a", True),
    (b"/a", b"/a/b", False),
    (b"/a/*", b"/a/b", True),
    (b"/a/*", b"/a/b/c", False),
    (b"/a/*", b"/a", False),
    (b"/a/**", b"/a/b", True),
    (b"/a/**", b"/a", False),
    (b"/**/x", b"/a/b/x", True),
    (b"/**/x", b"/a/b/xy", False),
    (b"/a/**/b", b"/a/x/b/y/b", True),
    (b"/a/**/b", b"/a/x/bb", False),
    (b"/**/b/**", b"/b", False),
    (b"/**/b/**", b"/a/b/b", True),
    (b"/?", b"/a", True),
    (b"/a?b", b"/a/b", False),
    (b"/a\\*", b"/a*", True),
    (b"/a\\*", b"/ab", False),
    (b"/a\\!b", b"/a!b", True),
    (b"/[\\]\\\\", b"/\\\\", True),
    (b"/[!a-c]x", b"/bx", False),
    (b"/[^a-c]x", b"/dx", True),
    (b"/[]]", b"/]", True),
    (b"/[a]b]", b"/ab]", True),
    (b"/x.[0-9]*.gz", b"/x.1.gz", True),
    (b"/*ab*ab", b"/ab", False),
    (b"/*ab*ab", b"/abab", True),
    (b"/ab*ba", b"/aba", False),
    (b"/a.b", b"/acb", False),
    (b"/\xff*", b"/\xff\n", True),
    (b"/A", b"/a", False),
]
NO_PATTERNS = [b"", b"a", b"*", b"/a**", b"/a/**b", b"/[a", b"/a\\", b"/[b-a]", b"/[!]", b"/[]"]


class PatternsTest(unittest.TestCase):
    def test_patterns(self) -> None:
        for text, path, want in PATTERNS:
            self.assertEqual(Pattern(text).matches(path[1:].split(b"/")), want, (text, path))
        for text in NO_PATTERNS:
            with self.assertRaises(ValueError, msg=repr(text)):
                Pattern(text)

    def test_hostile(self) -> None:
        """A hostile path costs at most its length times the pattern's; more would take years."""
        words = [sys.executable, "-c", HOSTILE, os.path.join(TOP, "commands", "lib")]
        done = subprocess.run(words, capture_output=True)
        self.assertEqual((done.returncode, done.stdout), (0, b"False False\n"), done)
