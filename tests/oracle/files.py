"""What the definitions want of a command line over the files of this machine."""
from __future__ import annotations

from tests.lib.answer import Answer

from .lines import lines_answer_of
from .session import File, Unread, answer_of


def file_at(path: bytes) -> File:
    """The bytes of a file of the machine, as the definitions ask for them."""
    try:
        with open(path, "rb") as file:
            return file.read()
    except IsADirectoryError:
        return Unread()
    except (OSError, ValueError):
        return None


def wanted(words: list[bytes]) -> Answer:
    return answer_of(words, file_at)


def wanted_lines(words: list[bytes]) -> Answer:
    """The answer that is wanted of the program that writes lines."""
    return lines_answer_of(words, file_at)
