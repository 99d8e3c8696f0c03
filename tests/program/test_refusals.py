"""What the built programs say of stored cases, and of databases and configurations that are refused
or only just allowed. The tables are in refusal_rows.py, field_rows.py and configurations/, and the
definitions have to say the same."""
from __future__ import annotations

from tests.lib.answer import Answer, run, shown
from tests.program import cases, field_rows, refusal_rows
from tests.program.configurations import limits, refused
from tests.program.real_files.folder import FolderTest, database


ACCEPTED = Answer(b"", b"", 0)


def refusal(said: str) -> Answer:
    return Answer(b"", b"aide: %s\n" % said.encode(), 17)


class RefusalsTest(FolderTest):
    def refused(self, old: bytes, new: bytes, said: str) -> None:
        """What is said of two databases, with a report and without one."""
        for options in (b"", b"report_quiet=yes\n"):
            self.folder.pair(old, new, options)
            want = Answer(b"", b"aide: %s\n" % said.encode(), 24)
            self.check_words(f"{shown(old)} and {shown(new)}", self.folder.words(), want)

    def test_databases(self) -> None:
        for said, text in refusal_rows.DATABASES:
            self.refused(text, refusal_rows.SOUND, "old database:" + said)
            self.refused(refusal_rows.SOUND, text, "new database:" + said)

    def test_fields(self) -> None:
        for column, field, said in field_rows.REFUSED:
            text = database(column, field)
            self.refused(refusal_rows.SOUND, text, f"new database:3: {said} in column 2")


class CasesTest(FolderTest):
    def test_cases(self) -> None:
        for label, words, want in cases.in_turn(cases.all_cases()):
            self.check_words(label, words, want)


class ConfigurationsTest(FolderTest):
    """One configuration after another, each in the place of the last."""

    def words(
        self, flag: bytes, text: bytes, before: bytes = b"", after: bytes = b""
    ) -> list[bytes]:
        self.folder.write("conf", text)
        return [flag, b"-c", self.folder.at("conf"), b"-B", before, b"-A", after]

    def test_refused(self) -> None:
        for line, said, text in refused.ALL + limits.REFUSED:
            self.check_words(
                shown(text), self.words(b"-D", text), refusal("config:%d: %s" % (line, said))
            )
        for flag, rows in ((b"-D", refused.CHECKED_TEXTS), (b"-E", refused.COMPARED_TEXTS)):
            for said, before, text, after in rows:
                self.check_words(shown(text), self.words(flag, text, before, after), refusal(said))

    def test_limits(self) -> None:
        for text in limits.ACCEPTED:
            self.check_words(shown(text), self.words(b"-D", text), ACCEPTED)
        for text in limits.WHOLE:
            self.check(shown(text), run(self.program, self.words(b"-D", text)), ACCEPTED)
        longer = self.words(b"-D", b"\n" * 4194305)
        said = b"aide: the configuration is longer than 4194304 bytes\n"
        self.check_words("a configuration that is too long", longer, Answer(b"", said, 17))
