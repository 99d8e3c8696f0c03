"""Databases cut at each byte, lines of the greatest length, and many or odd arguments."""
from __future__ import annotations

from tests.lib.answer import Answer, shown
from tests.lib.program_test import slow
from tests.oracle.database import LINE_LIMIT

from .folder import OLD, FolderTest

# The first fault of the old database cut after so many bytes: the last length with it, line, words.
CUTS = [
    (9, 1, b"no @@begin_db"),
    (11, 2, b"no @@end_db"),
    (12, 2, b"no @@db_spec"),
    (19, 2, b"unexpected directive"),
    (24, 2, b"bad @@db_spec"),
    (41, 3, b"no @@end_db"),
    (53, 3, b"wrong number of fields"),
    (58, 4, b"no @@end_db"),
    (71, 4, b"wrong number of fields"),
    (74, 5, b"no @@end_db"),
    (75, 5, b"wrong number of fields"),
    (81, 5, b"unexpected directive"),
]


def database(line: bytes, tail: bytes = b"@@end_db\n") -> bytes:
    return b"@@begin_db\n@@db_spec name lname\n" + line + b"\n" + tail


@slow
class LimitsTest(FolderTest):
    def test_cuts(self) -> None:
        """The old database cut at each byte."""
        for length in range(len(OLD) + 1):
            self.folder.pair(OLD[:length])
            want = self.folder.wanted()
            told = [(line, words) for last, line, words in CUTS if length <= last][:1]
            if told:
                want = Answer(b"", b"aide: old database:%d: %s\n" % told[0], 24)
            self.check_words("a cut after %d bytes" % length, self.folder.words(), want)

    def test_long_lines(self) -> None:
        """Lines of a database of just the greatest length, and one byte longer: a path and a link
        of a megabyte, a comment and an end line."""
        for more, statuses in ((0, (3, 3, 1, 0)), (1, (24, 24, 24, 24))):
            entry = b"/%ff" + b"a" * (LINE_LIMIT - 6 + more) + b" 1"
            link = b"/b " + b"\xc3\xb6" * ((LINE_LIMIT - 4) // 2) + b"z" * (1 + more)
            comment = b"#" * (LINE_LIMIT + more)
            end = b"@@end_db" + b" " * (LINE_LIMIT - 8 + more)
            texts = [database(entry), database(link), database(comment), database(b"/a 1", end)]
            for status, text in zip(statuses, texts):
                self.folder.pair(text, database(b"/a 1"), b"report_level=list_entries\n")
                self.ends(f"{shown(text)}, {LINE_LIMIT + more} bytes", self.folder.words(), status)
        behind = b"@@end_db\n" + b"x" * 3 * LINE_LIMIT
        self.folder.pair(database(b"/a 1", behind), database(b"/a 1"))
        self.ends("a long line behind the end", self.folder.words(), 0)


# Linux takes no argument of more than 131,071 bytes.
LONG_WORD = 130000
# All options that there are besides those that every session has.
FULL = [b"-B", b"report_level=summary", b"-A", b"#"]


def command_lines(conf: bytes) -> list[tuple[str, list[bytes], int]]:
    """Command lines of many, long, empty and blank arguments, with the status that is wanted."""
    begun = [b"-E", b"-c", conf]
    full = begun + FULL
    return [
        ("all options", full, 7),
        ("a last `--`", full + [b"--"], 7),
        ("a first `--`", [b"--"] + full, 15),
        ("an option twice", begun + [b"-A", b"#", b"-A", b"#"], 15),
        ("an eighth argument", full + [b"extra"], 15),
        ("1,000 empty arguments", full + [b""] * 993, 15),
        ("a long comment", begun + [b"-B", b"#" * LONG_WORD], 7),
        ("a long text with a fault", begun + [b"-A", b"\n" * LONG_WORD + b"hello"], 17),
        ("a long path", [b"-E", b"-c", conf + b"/" * LONG_WORD], 18),
        ("no argument", [], 15),
        ("an empty argument", [b""], 15),
        ("an empty configuration", [b"-E", b"-c", b""], 18),
        ("empty texts", begun + [b"-B", b"", b"-A", b""], 7),
        ("a blank before an option", [b" -E", b"-c", conf], 15),
        ("a blank before a path", [b"-E", b"-c", b" " + conf], 18),
        ("a newline after a path", [b"-E", b"-c", conf + b"\n"], 18),
        ("a tab as an argument", begun + [b"\t"], 15),
    ]


class ArgumentsTest(FolderTest):
    def test_arguments(self) -> None:
        self.folder.pair()
        for label, words, status in command_lines(self.folder.at("conf")):
            self.check_status(label, words, status)
