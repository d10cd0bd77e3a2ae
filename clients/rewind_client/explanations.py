"""Why a program stands as it does, as data: the end of the run, who waits for whom, a fault, and what is not done at the end."""
from __future__ import annotations

from dataclasses import dataclass
from enum import Enum
from typing import Optional

from .endings import Fate, fates_of
from .facts import Fact, Place, Verb
from .replies import Goroutine, KindWord, Reason, State, Variable
from .session import Session
from .waits import Wait, Waits, cycle_among


class Standing(Enum):
    """How a program stands."""

    RUNNING = "running"
    DEADLOCK = "deadlock"
    FAULT = "fault"
    ENDED = "ended"


@dataclass(frozen=True)
class Fault:
    """A fault: its name, the step, the places of its frames, the variables of the innermost, and the close that it met."""

    name: str
    step: str
    places: tuple[Place, ...]
    variables: tuple[Variable, ...]
    channel: str = ""
    closed_by: Optional[Fact] = None


@dataclass(frozen=True)
class Starved:
    """A clause of a select that has never been taken, though somebody waits for it, and how often the others were."""

    goroutine: str
    place: Place
    clause: int
    channel: str
    waiting: str
    since: str
    taken: tuple[tuple[int, int], ...]


@dataclass(frozen=True)
class Explanation:
    """How a program stands, and what there is to say of it.

    `ready` are the goroutines that can go on. At the end `fates` are what would become of those that are not done, and `waits` are
    the waits of those that would wait for ever.
    """

    standing: Standing
    waits: tuple[Wait, ...] = ()
    cycle: tuple[str, ...] = ()
    fault: Optional[Fault] = None
    ready: tuple[Goroutine, ...] = ()
    fates: tuple[Fate, ...] = ()
    starved: tuple[Starved, ...] = ()
    printed: int = 0


def explain(session: Session) -> Explanation:
    """Why the program stands as it does."""
    standing = standing_of(session)
    if standing is Standing.ENDED:
        fates, open_waits = fates_of(session)
        return Explanation(standing, waits=tuple(open_waits), fates=tuple(fates))
    waits = tuple(Waits(session).all())
    if standing is Standing.FAULT:
        return Explanation(standing, waits=waits, fault=fault_of(session))
    cycle = tuple(cycle_among(waits))
    if standing is Standing.DEADLOCK:
        return Explanation(standing, waits=waits, cycle=cycle)
    ready = tuple(it for it in session.goroutines() if it.state is State.READY)
    return Explanation(standing, waits=waits, cycle=cycle, ready=ready, starved=tuple(starved(session, waits)))


def standing_of(session: Session) -> Standing:
    end = session.stopped_by()
    if end is Reason.FAULT:
        return Standing.FAULT
    if end is Reason.ENDED:
        return Standing.ENDED
    return Standing.RUNNING if session.ready() else Standing.DEADLOCK


def fault_of(session: Session) -> Optional[Fault]:
    """The fault in which the log ends."""
    last = next(iter(session.facts.tail(1)), None)
    if last is None or last.kind.word is not KindWord.FAULT:
        return None
    shown = session.goroutine(last.owner)
    frame = shown.frames[0] if shown and shown.frames else None
    places = (last.place, *session.callers(last.step))
    closed_by = session.facts.closed_by(last)
    return Fault(last.kind.fault, last.step, places, frame.variables if frame else (), last.channel, closed_by)


def starved(session: Session, waits: tuple[Wait, ...]) -> list[Starved]:
    """The clauses of selects that were passed over each time, though somebody waited for them."""
    picks: dict[tuple[str, Place], dict[int, int]] = {}
    for fact in session.noted() if waits else []:
        if fact.kind.word is KindWord.PICK:
            of_select = picks.setdefault((fact.owner, fact.place), {})
            of_select[fact.kind.clause] = of_select.get(fact.kind.clause, 0) + 1
    wishes = {wish.channel: (wait, wish.verb) for wait in waits for wish in wait.wishes}
    found = []
    for (name, place), taken in picks.items():
        goroutine = session.goroutine(name)
        if goroutine is None or goroutine.state is State.DONE or goroutine.frames[0].function != place.function:
            continue
        for use in session.program.uses(place.function, place.line):
            values = goroutine.frames[0].values_of(use.variable)
            channel = next((value for value in values if value in wishes), "")
            wait, verb = wishes.get(channel, (None, None))
            meets = verb is not None and verb is not use.verb and Verb.CLOSE is not use.verb
            if use.case and use.case not in taken and wait and meets:
                counts = tuple(sorted(taken.items()))
                found.append(Starved(name, place, use.case, channel, wait.goroutine, wait.since, counts))
    return found
