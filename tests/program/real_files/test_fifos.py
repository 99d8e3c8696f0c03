"""Databases through FIFOs: each opening can be given its own text, and openings are counted."""
from __future__ import annotations

import contextlib
import os
import threading

from tests.lib.answer import Answer, run
from tests.lib.program_test import ProgramTest

from .folder import EMPTY, NEW, OLD, Folder, names

OTHER = OLD.replace(b" 10\n", b" 11\n")
DIGESTS = b"47DEQpj8HBSa+/TImW+5JCeuQeRkm5NMpJWZG3hSuFU=", b"1B2M2Y8AsgTpgAmY7PhCfg=="
OLD_DIGESTS = b"@@begin_db\n@@db_spec name md5 sha256\n/a %s 0\n@@end_db\n" % DIGESTS[1]
NEW_DIGESTS = b"@@begin_db\n@@db_spec name md5 sha256\n/a 0 %s\n@@end_db\n" % DIGESTS[0]
UNSORTED = b"@@begin_db\n@@db_spec name\n/b\n/a\n@@end_db\n"

# How often each database is opened: options, old, new, openings of old and of new.
OPENINGS = [
    (b"report_level=minimal", OLD, NEW, 2, 2),
    (b"report_level=summary", EMPTY, EMPTY, 2, 2),
    (b"report_level=database_attributes", OLD, NEW, 2, 2),
    (b"report_level=list_entries", OLD, NEW, 5, 5),
    (b"", OLD_DIGESTS, NEW_DIGESTS, 3, 3),
    (b"report_level=added_removed_attributes", OLD_DIGESTS, NEW_DIGESTS, 4, 4),
    (b"", OLD, NEW, 6, 6),
    (b"report_grouped=no", OLD, NEW, 4, 4),
    (b"report_quiet=yes", OLD, OLD, 2, 2),
    (b"", OLD, OLD, 2, 2),
    (b"", UNSORTED, NEW, 1, 0),
    (b"", OLD, UNSORTED, 1, 1),
]
WAIT = b"60"
LONG = 6000


class Feeder:
    """Gives a text to each reader that opens a path: the text of its number, or the last one.

    Each reader has a FIFO of its own, so that no reader is given two texts.
    """

    def __init__(self, path: bytes, texts: list[bytes]) -> None:
        self.path, self.texts, self.is_over = path, texts, False
        self.openings = self.given = 0
        self.thread = threading.Thread(target=self.feed, daemon=True)

    def feed(self) -> None:
        while True:
            file = os.open(self.path, os.O_WRONLY)
            if self.is_over:
                os.close(file)
                return
            self.openings += 1
            self.put_fifo()
            try:
                self.given += os.write(file, self.texts[min(self.openings, len(self.texts)) - 1])
            except BrokenPipeError:
                pass
            os.close(file)

    def put_fifo(self) -> None:
        os.mkfifo(self.path + b".next")
        os.replace(self.path + b".next", self.path)

    def __enter__(self) -> Feeder:
        self.put_fifo()
        self.thread.start()
        return self

    def __exit__(self, *_: object) -> None:
        self.is_over = True
        while self.thread.is_alive():
            reading = os.open(self.path, os.O_RDONLY | os.O_NONBLOCK)
            self.thread.join(0.1)
            os.close(reading)
        os.unlink(self.path)


def fed(
    program: bytes, words: list[bytes], texts: dict[bytes, list[bytes]]
) -> tuple[Answer, list[int]]:
    """The program's answer, and how often it opened databases; `texts`: those of each path."""
    with contextlib.ExitStack() as stack:
        feeders = [stack.enter_context(Feeder(path, each)) for path, each in texts.items()]
        answer = run("timeout", [WAIT, program, *words])
    return answer, [feeder.openings for feeder in feeders]


def fed_pair(
    program: bytes, folder: Folder, old_texts: list[bytes], new_texts: list[bytes]
) -> tuple[Answer, list[int]]:
    return fed(program, folder.words(), {folder.at("old"): old_texts, folder.at("new"): new_texts})


def beginning(report: bytes) -> bytes:
    """The head and the summary of a report."""
    return report[: report.index(b"\n\n---") + 1]


def change_faults(answer: Answer, side: bytes, number: int, report: bytes) -> list[str]:
    """What is wrong with the answer where a side is another one from so many openings on."""
    line = b"aide: the %s database changed while it was read\n" % side
    if (answer.errors, answer.status) != (line, 18):
        return [f"{side!r} from opening {number} on gave {answer}"]
    is_right = answer.output == b"" or number > 2 and answer.output.startswith(beginning(report))
    return [] if is_right else [f"{side!r} from opening {number} on wrote {answer.output!r}"]


class FifosTest(ProgramTest):
    def test_openings(self) -> None:
        """Each database is opened as often as the sections of the report want it."""
        with Folder() as folder:
            for options, old, new, *wanted in OPENINGS:
                folder.pair(old, new, options)
                want = folder.wanted()
                answer, openings = fed_pair(self.program, folder, [old], [new])
                self.check("databases through FIFOs", answer, want)
                self.holds("openings of databases", openings == wanted, (options, wanted, openings))

    def test_changes(self) -> None:
        """A database that is another one, cut or damaged, from its second or a later opening on."""
        with Folder() as folder:
            folder.pair()
            report = folder.wanted().output
            for side, text in ((b"old", OLD), (b"new", NEW)):
                others = [OTHER, UNSORTED, text[:-9], text[:40], b"", text + b"#"]
                for other in (*others, text.replace(b"/c", b"/d")):
                    for number in range(2, 7):
                        texts = [text] * (number - 1) + [other]
                        pair = (texts, [NEW]) if side == b"old" else ([OLD], texts)
                        answer, _ = fed_pair(self.program, folder, *pair)
                        faults = change_faults(answer, side, number, report)
                        self.add("a database changed from an opening on", faults)

    def test_late_changes(self) -> None:
        """A long report of which pages have gone out before a change shows: they begin with the
        head and the summary."""
        with Folder() as folder:
            new = names(LONG)
            folder.pair(OLD, new)
            report = folder.wanted().output
            for number in (3, 4):
                texts = [new] * (number - 1) + [new + b"#"]
                answer, _ = fed_pair(self.program, folder, [OLD], texts)
                faults = change_faults(answer, b"new", number, report)
                faults += [] if answer.output else ["opening %d wrote nothing" % number]
                self.add("a change after some pages", faults)

    def test_one_reading(self) -> None:
        """A FIFO that is written once is waited for at its second opening."""
        with Folder() as folder:
            folder.pair()
            os.unlink(folder.at("old"))
            os.mkfifo(folder.at("old"))
            writer = threading.Thread(target=folder.write, args=("old", OLD), daemon=True)
            writer.start()
            answer = run("timeout", [b"2", self.program] + folder.words())
            writer.join(1)
            self.check("a FIFO that is written once", answer, Answer(b"", b"", 124))
