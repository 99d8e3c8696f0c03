"""The program that writes the changes as lines of JSON, crates/aide_lines, beside the definitions,
byte by byte.

Each answer has to be that of tests/oracle/lines.py, and Python's `json` has to read it. The program
of the report, run with the same words, has to print the same on standard error and to end with the
same status.
"""
from __future__ import annotations

from tests.lib.answer import shown
from tests.lib.program_test import SESSIONS, new_seed, slow
from tests.oracle.attributes import ATTRIBUTES
from tests.oracle.files import wanted_lines
from tests.program.lines_program import LinesProgramTest
from tests.program.random_sessions import try_sessions
from tests.program.real_files.test_devices import check_outputs
from tests.program.real_files.folder import EMPTY, NEW, OLD, Folder
from tests.program.real_files.test_outside import check_file_sizes

# Names with each byte: alone, behind a letter, and behind the first of a character of 2, 3 or 4.
FRONTS = [b"", b"x", b"\xc3", b"\xe2\x80", b"\xf0\x9f\x98"]


def coded(text: bytes) -> bytes:
    return b"".join(b"%%%02x" % byte for byte in text)


def both_jobs(folder: Folder) -> list[tuple[str, list[bytes]]]:
    return [("-E", folder.words()), ("-D", [b"-D", b"-c", folder.at("conf")])]


class LinesTest(LinesProgramTest):
    def compared(self, label: str, old: bytes, new: bytes, *statuses: int) -> None:
        with Folder() as folder:
            folder.pair(old, new)
            self.ends(label, folder.words(), *statuses)

    def checked(self, text: bytes) -> None:
        """What -D says of a configuration, which may be refused."""
        with Folder() as folder:
            folder.write("conf", text)
            self.ends(f"checked: {shown(text)}", [b"-D", b"-c", folder.at("conf")], 0, 17)

    def test_options(self) -> None:
        """Each attribute that an option leaves out, which the line of -D names."""
        for each in ATTRIBUTES:
            for kind in (b"added", b"removed", b"changed"):
                self.checked(b"report_ignore_%s_attrs=%s" % (kind, each.name.encode()))

    def test_names(self) -> None:
        """Names of entries in odd spellings and with each byte, and links to each."""
        texts = sorted(
            {
                front + bytes([byte]) + back
                for front in FRONTS
                for byte in range(1, 256)
                for back in (b"", b"a")
            }
        )
        named = b"".join(b"/" + coded(text) + b" 1\n" for text in texts if b"/" not in text)
        named = b"@@begin_db\n@@db_spec name size\n" + named + b"@@end_db\n"
        for name in (b"/x%2", b"/x%252", b"/x%0Ay%zz", b"%2fa%2Fb", b"/%C3%a9\xff"):
            text = b"@@begin_db\n@@db_spec name\n%s\n@@end_db\n" % name
            self.compared(f"a name that is spelled {shown(name)}", EMPTY, text, 1)
        self.compared("names of each byte, removed", named, EMPTY, 2)
        self.compared("names of each byte, added", EMPTY, named, 1)
        linked = b"".join(
            b"/%05d %%s%s\n" % (number, coded(text)) for number, text in enumerate(texts)
        )
        old, new = (
            b"@@begin_db\n@@db_spec name lname\n" + linked.replace(b"%s", end) + b"@@end_db\n"
            for end in (b"x", b"y")
        )
        self.compared("links to each byte", old, new, 4)

    def test_outputs(self) -> None:
        with Folder() as folder:
            folder.pair(OLD, NEW)
            for label, words in both_jobs(folder):
                check_outputs(self, label, self.lines_program, words)

    @slow
    def test_sizes(self) -> None:
        with Folder() as folder:
            folder.pair(OLD, NEW)
            for label, words in both_jobs(folder):
                check_file_sizes(self, label, self.lines_program, words, wanted_lines(words), 7)

    def test_random_sessions(self) -> None:
        try_sessions(self.beside, new_seed(), range(SESSIONS), 2, self)
