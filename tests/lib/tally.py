"""Counting what comes out as wanted, and work side by side."""
from __future__ import annotations

from collections import Counter
from collections.abc import Callable, Iterable, Iterator, Sequence
from concurrent.futures import ThreadPoolExecutor
from typing import TypeVar

Item = TypeVar("Item")
Result = TypeVar("Result")


class Tally:
    """How many trials came out as wanted; each other one is printed as it comes."""

    def __init__(self) -> None:
        self.passed = self.failed = 0
        self.skipped: Counter[str] = Counter()

    def add(self, label: str, faults: Sequence[str]) -> None:
        if not faults:
            self.passed += 1
            return
        self.failed += 1
        for fault in faults:
            print(f"{label}: {fault}", flush=True)

    def holds(self, label: str, good: object, got: object = "") -> None:
        """Counts a condition; `got` is what is printed if it does not hold."""
        text = got if isinstance(got, str) else repr(got)
        self.add(label, [] if good else [f"does not hold {text[:2000]}".rstrip()])

    def status(self) -> int:
        """Prints why and how often something was skipped, and the last line. Returns the status of
        the process: a run in which nothing was tried has failed."""
        for reason, count in sorted(self.skipped.items()):
            print(f"skipped {count}: {reason}")
        if not self.passed + self.failed:
            self.add("all", ["nothing was tried"])
        print(f"{self.passed} passed, {self.failed} failed", flush=True)
        return 1 if self.failed else 0


def side_by_side(
    jobs: int, work: Callable[[Item], Result], items: Iterable[Item]
) -> Iterator[Result]:
    """The results of some work over items, so many of them at a time, in the order of the items."""
    with ThreadPoolExecutor(jobs) as pool:
        yield from pool.map(work, items)
