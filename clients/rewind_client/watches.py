"""Stops where a variable is given a value, or something goes over a channel, forward and back."""
from __future__ import annotations

from collections.abc import Callable, Sequence
from typing import Optional

from .facts import Fact
from .motion import Lines, Motion, Stop, StopReason, back_to, stop_of_run
from .replies import Entry, Ran, Reason
from .session import Session
from .watched import Watch, Watched

# So many steps are taken before it is looked whether one did what is watched; at first it is a few.
LARGEST_PORTION = 50_000
# It is told so often how many steps were looked at.
TOLD = 4000

Watches = Callable[[], Sequence[Watched]]


def watch_of(fact: Fact, watches: Sequence[Watched]) -> Optional[Watched]:
    """The first of some things that a step did; none where it did none of them."""
    return next((it for it in watches if it.is_done_by(fact)), None)


def stop_at(reason: StopReason, fact: Fact, watch: Watched) -> Stop:
    """A stop for what is watched, at the goroutine of the variable, or of the step."""
    entry = Entry(fact.step, fact.kind)
    if isinstance(watch, Watch):
        return Stop(reason, watch.goroutine, entry, before=watch.variable, watch=watch)
    return Stop(reason, fact.owner, entry, watch=watch)


def forward_to_value(session: Session, lines: Lines, watches: Watches, goroutine: str) -> Motion:
    """Runs all, round robin, until a step has done what is watched, or a run would stop before that."""
    taken, again, portion = 0, 0, 1
    while True:
        if again:
            session.undo()
        before = session.length()
        run = session.run(portion + again)
        for place, fact in enumerate(session.facts.seen(before + 1, session.length()), before + 1):
            watch = watch_of(fact, watches())
            if watch:
                session.cut(place)
                return stop_at(StopReason.VALUE, fact, watch)
        taken += run.taken - again
        if run.reason is not Reason.COUNT:
            return stop_of_run(session, Ran(taken, run.reason, run.line), goroutine)
        yield taken
        again = 1 if lines() else 0
        portion = min(2 * portion, LARGEST_PORTION)


def backward_to_value(session: Session, lines: Lines, watches: Watches) -> Motion:
    """Takes steps back as far as before the last one that did what is watched, or as `backward` does."""
    length, wanted = session.length(), watches()
    for number, fact in enumerate(session.facts.backward(), 1):
        watch = watch_of(fact, wanted)
        if watch:
            session.cut(length - number)
            return stop_at(StopReason.VALUE_TAKEN_BACK, fact, watch)
        if fact.line in lines():
            return back_to(session, length - number)
        if number % TOLD == 0:
            yield number
    return back_to(session, -1)
