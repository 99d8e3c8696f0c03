"""The proved programs asked over a configuration, and over two databases."""
from __future__ import annotations

import json
from collections.abc import Collection, Mapping
from contextlib import suppress
from typing import Any

from aide_compare.base.directories import closed_after
from aide_compare.base.ending import DeviceFault, Fault
from aide_compare.base.escapes import shown
from aide_compare.base.files import in_memory
from aide_compare.base.processes import Taker
from aide_compare.base.program import CONFIGURATION, DATABASE_LINES, DESCRIPTORS, LINES_PROGRAM
from aide_compare.base.program import Answer, Drain, find_installed, run_program
from aide_compare.base.words import TRUSTED_SIDES
from aide_compare.compare.configuration import ConfigurationTexts
from aide_compare.lines.rights import RIGHTS

# What the program says of a configuration: the values of its options by their names.
Settings = Mapping[str, Any]

MAX_SETTINGS = 1 << 16
SETTINGS_FORMAT = 3  # Of the line that says what a configuration means.
FORCE_NAME = b"report_force_attrs"
FORCE = FORCE_NAME + b"="


def odd_answer(program: str, answer: Answer) -> Fault:
    """The Fault for a status that is not borne out: a loader that refuses the program ends with 1,
    as added entries do."""
    first_error = shown(answer.errors.split(b"\n")[0], 300)
    why = f"ended with status {answer.status}, but its answer does not say so"
    if first_error:
        why = f"does not run here: {first_error}"
    return DeviceFault(f"{shown(program)} {why}")


def _ask(
    program: str,
    words: list[bytes],
    texts: ConfigurationTexts,
    places: Mapping[int, int],
    take: Taker,
) -> Answer:
    """Runs a program over texts, by these words and those that name the configuration."""
    with closed_after(in_memory(texts.config)) as configuration:
        words = [*words, b"-c", b"/proc/self/fd/%d" % CONFIGURATION]
        return run_program(program, words, {**places, CONFIGURATION: configuration}, take)


def ask_for_changes(
    program: str,
    texts: ConfigurationTexts,
    databases: Mapping[str, int],
    take: Taker,
    forced: Collection[str] = (),
    without: bytes = b"",
) -> Answer:
    """Compares databases, by their descriptors for each side: what the program writes goes to
    `take`, with the `forced` attributes of each changed entry. `without`: the list of what is left
    out."""
    places = {DESCRIPTORS[side]: descriptor for side, descriptor in databases.items()}
    words = [b"-E"]
    last = DATABASE_LINES
    if forced:
        line = FORCE + "+".join(forced).encode() + b"\n"
        # Those after `report_url=stdout` do not count, and of the others the last one does.
        words.append(b"--before=" + line)
        last = line + last
    words.append(b"--after=" + texts.after + b"\n" + last)
    for side in TRUSTED_SIDES:
        if side in databases:
            option = f"--{side.replace('_', '-')}=/proc/self/fd/{DESCRIPTORS[side]}"
            words.append(option.encode())
    if without:
        words.append(b"--without=" + without)
    return _ask(program, words, texts, places, take)


def ask_for_lines(
    texts: ConfigurationTexts, databases: Mapping[str, int], without: bytes, take: Taker
) -> Answer:
    """Asks for the lines of the changes. Each has the rights of both sides, and the attributes that
    the texts force themselves. `without`: the list of what is left out."""
    program = find_installed(LINES_PROGRAM)
    forced = set(RIGHTS)
    if any(FORCE_NAME in text for text in texts):
        forced.update(settings_of(texts).get(FORCE_NAME.decode(), ()))
    return ask_for_changes(program, texts, databases, take, sorted(forced), without)


def settings_of(texts: ConfigurationTexts) -> Settings:
    """What the program says of texts, without any database; nothing if it refuses them."""
    written = bytearray()
    program = find_installed(LINES_PROGRAM)
    take = Drain(MAX_SETTINGS, written.extend).take
    answer = _ask(program, [b"-D", b"--after=" + texts.after], texts, {}, take)
    if answer.status > 7:
        return {}
    with suppress(ValueError, KeyError, TypeError):
        settings = json.loads(written)
        if settings["format"] == SETTINGS_FORMAT:
            return dict(settings)
    raise odd_answer(program, answer)
