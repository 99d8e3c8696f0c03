"""The changes of a comparison, judged."""
from __future__ import annotations

from collections.abc import Iterator

from aide_compare.base.ending import EXPECTED, why_of
from aide_compare.base.words import TRUSTED_SIDES
from aide_compare.changes.judged import Judged, named_packages
from aide_compare.changes.recorded import records_of_host
from aide_compare.compare.comparison import Comparison, Judgement
from aide_compare.lines.reader import reader_over


def judge(comparison: Comparison) -> Judged | None:
    """The changes of a comparison, which gets its judgement. If something keeps them from being
    judged, a doubt says why, and without standings every change is an alarm."""
    doubts: list[str] = []
    try:
        lines = comparison.whole_lines()
        judged = Judged(reader_over(lines.fd), lines.others)
        doubts += [*judged.doubts(), *group(comparison, judged)]
        comparison.judgement = Judgement(judged.counts, doubts, judged.left_out)
        return judged
    except EXPECTED as error:
        doubts.append(f"the changes are not judged: {why_of(error)}")
        comparison.judgement = Judgement(doubts=doubts)
        return None


def group(comparison: Comparison, judged: Judged) -> Iterator[str]:
    """Packages' records of this machine group the changes. If these cannot be read, it yields why,
    and each change stays open."""
    try:
        judged.named = named_packages(judged.table, TRUSTED_SIDES[1] in comparison.copies)
        if not len(judged.table):
            return
        records = records_of_host()
        if records:
            judged.group_by(records)
    except Exception as error:
        yield f"no package groups the changes: {why_of(error)}"
