"""Counts of what came of many uses of the program, and what was wrong with some."""
from __future__ import annotations

from collections import Counter
from typing import Optional

MOST_TOLD = 20


class Tally:
    """Counts of cases by what came of them, and the failures."""

    def __init__(self) -> None:
        self.ends: Counter[str] = Counter()
        self.failures: list[str] = []

    def note(self, what: str, wrong: Optional[str] = None) -> None:
        """Counts a case; `wrong` says what is wrong with it, where something is."""
        self.ends[what] += 1
        if wrong:
            self.failures.append(wrong)

    def add(self, other: Tally) -> None:
        """Adds the cases of another tally."""
        self.ends.update(other.ends)
        self.failures += other.failures

    def told(self) -> str:
        """How many cases there were, and what came of them."""
        ends = sorted(self.ends.items(), key=lambda end: (-end[1], end[0]))
        return f"{sum(self.ends.values()):,} cases: " + ", ".join(f"{times:,} {what}" for what, times in ends)

    def check(self) -> str:
        """Fails with the first failures, where there are some; else what is told of the cases."""
        more = len(self.failures) - MOST_TOLD
        lines = self.failures[:MOST_TOLD] + [f"and {more} more"] * (more > 0)
        assert not self.failures, "\n".join([f"{len(self.failures)} wrong of {self.told()}", *lines])
        return self.told()


def cut(text: bytes, places: int) -> str:
    """The text in a line that a person reads."""
    return repr(text if len(text) <= places else text[:places] + b"..")
