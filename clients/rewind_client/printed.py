"""The lines that a program printed, and what became of them."""
from __future__ import annotations

from collections.abc import Sequence
from typing import NamedTuple


class Change(NamedTuple):
    """Lines that are new, lines that are no longer printed, and whether the others stand in another order."""

    added: list[str]
    taken_back: list[str]
    reordered: bool


def change(before: Sequence[str], now: Sequence[str]) -> Change:
    """What made the lines of one state those of another.

    Steps that are taken add lines at the end, steps that go back leave the others in their order, and another order of the
    steps moves lines.
    """
    if list(now[: len(before)]) == list(before):
        return Change(list(now[len(before) :]), [], False)
    taken_back, kept = [], 0
    for line in before:
        if kept < len(now) and now[kept] == line:
            kept += 1
        else:
            taken_back.append(line)
    if kept == len(now):
        return Change([], taken_back, False)
    return Change([], [], True)
