"""What commands tell of a comparison beside its report."""
from __future__ import annotations

import os
from collections.abc import Iterable
from typing import TYPE_CHECKING

from aide_compare.base.escapes import guarded, shown, shown_lines
from aide_compare.base.words import counted

if TYPE_CHECKING:
    from aide_compare.compare.comparison import Comparison


def _notes_of(comparison: Comparison, verbose: bool) -> list[str]:
    """What was not compared: with `verbose` how many changes each line of a list has left out."""
    notes = list(comparison.notes)
    exclusions = comparison.request.exclusions
    if verbose and exclusions:
        for number, count in sorted(comparison.judgement.left_out.items()):
            words = exclusions.lines[number - 1].words()
            notes.append(f"left out by {words}: {counted(count, 'change')}")
    return notes


def _faults_of(comparison: Comparison) -> list[str]:
    """Why nothing was compared, the cause first."""
    fault = comparison.fault
    if fault is None:
        return []
    return [fault.text, *fault.more]


def _errors_of(comparison: Comparison) -> list[str]:
    """The lines of the program itself, in which databases have their names, and not those of
    descriptors."""
    # Here, so that status does not load what starts programs.
    from aide_compare.base.program import DESCRIPTORS

    errors = comparison.errors
    for side, copy in comparison.copies.items():
        words = b" database /proc/self/fd/%d" % DESCRIPTORS[side]
        errors = errors.replace(words, b" database " + os.fsencode(shown(copy.name)))
    return [line for line in shown_lines(errors).split("\n") if line]


def no_difference(comparison: Comparison) -> bytes:
    """The one line of a comparison that has found none."""
    entries = counted(comparison.known_lines().end.total, "entry")
    return f"no differences in {entries}\n".encode()


def told_of(comparison: Comparison, quiet: bool = False, verbose: bool = False) -> str:
    """The lines beside a report: notes, what the program says, and what is not silent. If nothing
    was compared, the cause comes first, and notes only with `verbose`. With `quiet` there are no
    notes, and what the program says only then."""
    hints = _ours([*comparison.hints, *comparison.judgement.doubts, *comparison.warnings])
    if comparison.has_failed:
        lines = [*_ours(_faults_of(comparison)), *_errors_of(comparison), *hints]
        if verbose and not quiet:
            lines += _ours(_notes_of(comparison, verbose))
    elif quiet:
        lines = hints
    else:
        lines = [*_ours(_notes_of(comparison, verbose)), *_errors_of(comparison), *hints]
    return "".join(f"{line}\n" for line in lines)


def _ours(texts: Iterable[str]) -> list[str]:
    """Texts as lines of the command itself."""
    return [f"aide-compare: {guarded(text)}" for text in texts]
