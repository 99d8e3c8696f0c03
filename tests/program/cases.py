"""Stored cases: whole sessions, each in one file, with their answers.

A case begins with a sentence that says what it shows. Then come sections, each under a line `--
NAME --`: `words` (the arguments, with blanks between), files of the folder in which the case is run
(`conf`, `old`, `new`), the text of a list (`list`), and the right answer: `stdout` and `stderr`,
which are left out where they are empty, and a line `-- status NUMBER --`. Without `words` both
databases are compared, beside a trusted pair if there is one. Without a `conf` there is one that
names both databases, and then has the lines of a section `options`. `/@DIR@` is replaced by the
folder. Each argument is read with backslashes as in C.
"""
from __future__ import annotations

import glob
import os
import re
import tempfile
from collections.abc import Iterator

from tests.lib.answer import Answer

HEADER = re.compile(r"^-- (\w+)( \d+)? --$")
ANSWERS = ["stdout", "stderr", "status"]
FOLDER = os.path.join(os.path.dirname(os.path.abspath(__file__)), "cases")
# The cases of the program of lines, beside those of the report.
LINES = "cases_of_lines"
DIR = b"/@DIR@"
# What a case without `words` and without a `conf` has.
WORDS = b"-E -c /@DIR@/conf"
TRUSTED = b" --trusted-old /@DIR@/trusted_old --trusted-new /@DIR@/trusted_new"
DATABASES = b"database_in=file:/@DIR@/old\ndatabase_new=file:/@DIR@/new\n"

# The sections of a case by their names.
Case = dict[str, bytes]


def unescaped(text: bytes) -> bytes:
    return text.decode("unicode_escape").encode("latin-1")


def read(path: str) -> Case:
    with open(path, encoding="utf-8") as file:
        lines = file.readlines()
    case: Case = {}
    name = "title"
    for line in lines:
        found = HEADER.match(line)
        if found:
            name = found.group(1)
            case[name] = (found.group(2) or "").encode()
        else:
            case[name] = case.get(name, b"") + line.encode()
    return case


def put(case: Case, folder: bytes) -> list[bytes]:
    """Writes the files of a case into a folder, and gives its words."""
    others = [*ANSWERS, "title", "words", "options", "list"]
    files = {name: text for name, text in case.items() if name not in others}
    files.setdefault("conf", DATABASES + case.get("options", b""))
    for name, text in files.items():
        with open(os.path.join(folder, name.encode()), "wb") as file:
            file.write(text.replace(DIR, folder) if name == "conf" else text)
    usual = WORDS + TRUSTED if "trusted_old" in case else WORDS
    words = [unescaped(word) for word in case.get("words", usual).split()]
    if "list" in case:
        words += [b"--without", case["list"]]
    return [word.replace(DIR, folder) for word in words]


def stored(case: Case, folder: bytes) -> Answer:
    output, errors, status = (case.get(name, b"").replace(DIR, folder) for name in ANSWERS)
    return Answer(output, errors, int(status))


def all_cases() -> list[str]:
    return sorted(glob.glob(os.path.join(FOLDER, "*", "*.case")))


def in_turn(paths: list[str]) -> Iterator[tuple[str, list[bytes], Answer]]:
    """The label, the words and the answer of each case, with its files in a folder for so long."""
    if not paths:
        raise ValueError("there is no case in " + FOLDER)
    for path in paths:
        case = read(path)
        with tempfile.TemporaryDirectory() as name:
            folder = name.encode()
            yield os.path.relpath(path, FOLDER), put(case, folder), stored(case, folder)
