"""The direct causes of a step: the steps of other goroutines on which it depends without a third one between them.

All causes of a step are many, since each depends on those before it. A direct one started the goroutine, closed the channel, gave
or took the value, ended the wait of the goroutine's step before, or was first in a queue.
"""
from __future__ import annotations

from collections.abc import Sequence
from enum import Enum
from typing import NamedTuple

from .facts import Fact, Verb
from .names import step_number, step_of, step_owner
from .replies import KindWord
from .session import Session

LOCAL = frozenset((KindWord.PURE, KindWord.CALL, KindWord.RETURN, KindWord.GO, KindWord.MAKE))


class EdgeKind(Enum):
    """What an earlier step was to a later one."""

    START = "started the goroutine"
    CLOSE = "closed the channel"
    MESSAGE = "is the other half of the message"
    WAIT = "ended the wait of the step before it"
    ORDER = "came first"


class Edge(NamedTuple):
    """A direct cause of a step."""

    source: Fact
    kind: EdgeKind


class DirectCauses:
    """Finds direct causes in the log of a session."""

    def __init__(self, session: Session) -> None:
        self.facts = session.facts
        self.core = session.queried()
        self.known: dict[str, dict[str, int]] = {}

    def of(self, fact: Fact) -> list[Edge]:
        """The direct causes of a kept step, in the order of the log."""
        waker = fact.wrote_last(fact.owner)
        if step_owner(waker) == fact.owner:
            waker = ""
        if fact.kind.word in LOCAL and not waker:
            return []
        close = self.facts.closed_by(fact) if fact.kind.stops else None
        found = {close.step} if close else set() if fact.kind.stops else set(self.unimplied(self.new_sources(fact)))
        met = [wait for wait in fact.woke if takes_from(fact)]
        if waker and not fact.kind.stops:
            found.add(waker)
        found.update(met)
        ordered = [step for step in self.core.causes(fact.step) if step in found] if len(found) > 1 else list(found)
        return [Edge(it, edge_kind(it, fact, it.step in met, it.step == waker)) for it in self.facts.of_all(ordered)]

    def causes(self, step: str) -> dict[str, int]:
        """Of the steps that a step depends on, the number of the last one of each goroutine."""
        if step not in self.known:
            last: dict[str, int] = {}
            for cause in self.core.causes(step):
                last[step_owner(cause)] = step_number(cause)
            self.known[step] = last
        return self.known[step]

    def new_sources(self, fact: Fact) -> list[str]:
        """The last step of each other goroutine that a step depends on, and the one before it does not."""
        number = step_number(fact.step)
        known = self.causes(step_of(fact.owner, number - 1)) if number > 1 else {}
        others = [(name, last) for name, last in self.causes(fact.step).items() if name != fact.owner]
        return [step_of(name, last) for name, last in others if last > known.get(name, 0)]

    def unimplied(self, sources: Sequence[str]) -> list[str]:
        """The sources on which no other one depends."""
        return [it for it in sources if not any(other != it and self.depends(other, it) for other in sources)]

    def depends(self, step: str, earlier: str) -> bool:
        return self.causes(step).get(step_owner(earlier), 0) >= step_number(earlier)


def puts(fact: Fact) -> bool:
    """Whether a step put a value into a buffer."""
    return fact.sends() and not fact.woke


def takes(fact: Fact) -> bool:
    """Whether a step took a value out of a buffer."""
    return fact.receives() and fact.kind.word in (KindWord.TAKE, KindWord.PICK)


def takes_from(fact: Fact) -> bool:
    """Whether a step took its value from the sender that it woke, and not out of a buffer."""
    return fact.verb is Verb.RECEIVE and fact.kind.word is not KindWord.TAKE and not from_buffer(fact)


def from_buffer(fact: Fact) -> bool:
    """Whether a step took a value out of a buffer: it has written the place of the value there."""
    return any(it.object == "slot" and it.of == fact.channel and it.wrote for it in fact.sources)


def edge_kind(source: Fact, fact: Fact, is_met: bool, is_waker: bool) -> EdgeKind:
    if source.kind.word is KindWord.GO:
        return EdgeKind.START
    if source.kind.word is KindWord.CLOSE:
        return EdgeKind.CLOSE
    if is_met or (puts(source) and takes(fact)):
        return EdgeKind.MESSAGE
    return EdgeKind.WAIT if is_waker else EdgeKind.ORDER
