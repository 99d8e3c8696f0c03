"""Random sessions: configuration, words and two databases; NUMBER of a seed is always the same."""
from __future__ import annotations

import functools
import os
import random
import shutil
import tempfile
from collections.abc import Callable

from tests.lib.tally import side_by_side
from tests.program.random_texts.configurations import random_configuration, random_words
from tests.program.random_texts.databases import random_pair
from tests.program.random_texts.trusted import random_four, random_words_beside
from tests.lib.program_test import AnswerTest

# What writes the files of a session, by a seed, its number and a folder, and gives its words; and
# what gives the status that is wanted of words, and what is not as wanted.
Make = Callable[[int, int, bytes], list[bytes]]
Check = Callable[[list[bytes]], tuple[int, list[str]]]


# The names of folders: most are plain, and others have blanks, a newline, bytes above 127, what
# JSON escapes or a great length.
FOLDERS = 8 * [b"plain"] + [b" ends ", "\xe9 \u20ac \U0001f332".encode(), b"-E", b"#x = y", b"a\nb"]
FOLDERS += [b"a\xffb", b'"\\\t\x7f', "\u202e\u2066".encode(), b"/".join([b"d" * 249] * 6)]


def write(path: bytes, text: bytes) -> None:
    with open(path, "wb") as file:
        file.write(text)


def make_session(seed: int, number: int, folder: bytes) -> list[bytes]:
    """Writes the files of a session and gives its words."""
    pick = random.Random("%d %d" % (seed, number))
    bad = pick.choice([0, 0, 0, 0.1, 0.5])
    folder = os.path.join(folder, pick.choice(FOLDERS))
    os.makedirs(folder)
    config = os.path.join(folder, b"conf")
    write(config, random_configuration(pick, folder, bad))
    for name, text in zip((b"old", b"new"), random_pair(pick)):
        if pick.random() < 0.99:
            write(os.path.join(folder, name), text)
    return random_words(pick, config if pick.random() < 0.99 else config + b"x", bad)


def make_session_beside(seed: int, number: int, folder: bytes) -> list[bytes]:
    """Writes the files of a session of two pairs, one of them trusted. Gives its words."""
    pick = random.Random("%d %d beside" % (seed, number))
    bad = pick.choice([0, 0, 0, 0, 0.3])
    config = os.path.join(folder, b"conf")
    write(config, random_configuration(pick, folder, bad))
    for name, text in zip((b"old", b"new", b"trusted_old", b"trusted_new"), random_four(pick)):
        if pick.random() < 0.997:
            write(os.path.join(folder, name), text)
    return random_words_beside(pick, folder, config, bad)


def try_session(check: Check, seed: int, number: int, top: bytes, make: Make) -> list[str]:
    """What is not as wanted of a session."""
    folder = os.path.join(top, b"%d" % number)
    os.mkdir(folder)
    words = make(seed, number, folder)
    _, faults = check(words)
    if not faults:
        shutil.rmtree(folder)
    else:
        faults.append("its files are in %s, its words are %r" % (os.fsdecode(folder), words))
    return faults


def try_sessions(
    check: Check, seed: int, numbers: range, jobs: int, tally: AnswerTest, make: Make = make_session
) -> None:
    """Tries so many sessions, which `make` writes; the files of those that went wrong are kept."""
    top = tempfile.mkdtemp(prefix="sessions-").encode()
    trial = functools.partial(try_session, check, seed, top=top, make=make)
    for number, faults in zip(numbers, side_by_side(jobs, trial, numbers)):
        tally.add("seed %d, session %d" % (seed, number), faults)
    if not os.listdir(top):
        os.rmdir(top)
