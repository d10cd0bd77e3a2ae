"""The last step of a statement on one of some lines, as the facts of the steps tell it."""
from __future__ import annotations

from collections.abc import Generator
from typing import AbstractSet, Optional

from .core import first_word
from .replies import Reason
from .session import Session

# It is told so often how many steps were looked at.
PORTION = 4000
# Of a longer log it is tried first whether it is one of a round robin, which can be made to stop at lines.
FAR = 50_000
MOST_STOPS = 20_000
MOST_STEPS = 1_000_000
# Commands that lead along a round robin, forward and back.
BY_TURNS = frozenset(("run", "undo", "break", "clear", "free"))


def last_step_at(session: Session, lines: AbstractSet[int]) -> Generator[int, None, int]:
    """The place in the log of the last step of a statement that begins on one of some lines, or -1.

    It yields now and then how many steps it has looked at.
    """
    length = session.length()
    by_turns = place_by_turns(session, lines) if length > FAR else None
    if by_turns is not None:
        return by_turns
    for number, fact in enumerate(session.facts.backward(), 1):
        if fact.line in lines:
            return length - number
        if number % PORTION == 0:
            yield number
    return -1


def place_by_turns(session: Session, lines: AbstractSet[int]) -> Optional[int]:
    """The same for a log that a round robin makes, by a run that stops at these lines; None for another log."""
    if not session.is_whole or not all(first_word(command) in BY_TURNS for command in session.core.given):
        return None
    length, core = session.length(), session.begin()
    try:
        shown, taken = core.show("g0"), 0
        place = 0 if shown and shown.line in lines else -1
        for line in lines:
            core.set_breakpoint(line)
        for _ in range(MOST_STOPS):
            ran = core.run(min(length - taken, MOST_STEPS))
            taken += ran.taken
            if ran.reason is not Reason.BREAK or taken == length:
                break
            place = taken
        return place if taken == length else None
    finally:
        core.process.end()
