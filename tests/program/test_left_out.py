"""What the program of lines leaves out by a list: directories whose writers nobody knows, and paths
below which AIDE does not see all."""
from __future__ import annotations

import json

from tests.lib.answer import run
from tests.oracle.files import wanted_lines
from tests.program.happened_rows import COLUMNS, entry
from tests.program.lines_program import LinesProgramTest
from tests.program.real_files.folder import EMPTY, Folder, database

# The old and the new entry, as in happened_rows.py, and whether a list may leave out the change.
DIRECTORIES = [
    ("a directory comes", ".", "d 2", True),
    ("a directory of a user comes", ".", "d 2 uid=1000", True),
    ("a directory comes, and nobody knows its owner", ".", "d 2 !uid", False),
    ("a directory comes, and nobody knows its group", ".", "d 2 !gid", True),
    ("it gets a subdirectory, and nobody knows its owner", "d 2 !uid", "d 3 !uid", False),
    ("it gets one, and its owner is not known any more", "d 2", "d 3 !uid", False),
    ("its group may write it", "d775 lcount=2", "d775 lcount=3", True),
    ("nobody knows which group may write it", "d775 lcount=2 !gid", "d775 lcount=3 !gid", False),
    ("nobody knows the group of one that all may write", "d777 !gid", "d777 lcount=3 !gid", False),
    ("it goes, and nobody knew its owner", "d 2 !uid", ".", True),
    ("a directory that all may write goes", "d777", ".", True),
    ("a file comes, and nobody knows its owner", ".", "644 N !uid", True),
]
# AIDE sees no path of more than 4,095 bytes: in a directory at the first of these it sees each name
# of 255 bytes, which is the longest.
SEEN, UNSEEN = 4095 - 1 - 255, 4095 - 255


class LeftOutTest(LinesProgramTest):
    def is_left_out(self, label: str, old: bytes, new: bytes, is_left_out: bool) -> None:
        with Folder() as folder:
            words = [*folder.put([old, new]), b"--without", b"/**"]
            answer = run(self.lines_program, words)
            self.check(label, answer, wanted_lines(words))
        line = json.loads(answer.output.splitlines()[1])
        self.holds(label, line.get("left_out") == (1 if is_left_out else None), line)

    def test_directories(self) -> None:
        columns = " ".join(COLUMNS).encode()
        for label, old, new, is_left_out in DIRECTORIES:
            fields = [entry(text) for text in (old, new)]
            sides = [database(columns, b" ".join(each)) if each else EMPTY for each in fields]
            self.is_left_out(label, sides[0], sides[1], is_left_out)

    def test_long_paths(self) -> None:
        """A directory in which AIDE may not see each entry is named, with escapes or without."""
        for size, is_left_out in ((SEEN - 1, True), (SEEN, True), (UNSEEN, False), (4095, False)):
            for escape in (b"a", b"%61"):
                path = b"/" + escape + b"b" * (size - 2)
                text = b"@@begin_db\n@@db_spec name perm uid gid\n%s 40755 0 0\n@@end_db\n" % path
                label = f"a path of {size} bytes with {escape.decode()}"
                self.is_left_out(label, EMPTY, text, is_left_out)
