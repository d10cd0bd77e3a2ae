"""A scheduler of one's own: the goroutine that was started last goes first, with the last case of its select that can proceed.

It is asked before each step of a schedule, and a new one is made for each schedule.
"""
from __future__ import annotations

from collections.abc import Sequence
from random import Random
from typing import Any


class YoungestFirst:
    """Each of `ready` has the name of a goroutine, the line of its next step, and the cases of its select that can proceed."""

    takes_chance = False  # so that one schedule is enough

    def __init__(self, random: Random, steps: int) -> None:
        """`random` is the chance that a seed decides, and `steps` how many steps a round robin takes."""

    def choose(self, ready: Sequence[Any]) -> tuple[str, int]:
        """The goroutine that goes next, and the case of its select, or 0 for the first that can proceed."""
        one = max(ready, key=lambda it: [int(part) for part in it.goroutine[1:].split(".")])
        return one.goroutine, one.cases[-1] if one.cases else 0
