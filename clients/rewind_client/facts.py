"""What Rewind tells of the kept steps: where each was, what it did, and what it met.

They are asked in portions, as far as somebody looks, and kept until their steps are taken back.
"""
from __future__ import annotations

from collections.abc import Callable, Iterator, Sequence
from enum import Enum
from typing import Any, NamedTuple, Optional

from .core import Core
from .names import step_number, step_of, step_owner
from .replies import Kind, KindWord, Reply, kind_of

# So many rows are told in one answer.
PORTION = 1000
FIRST_PORTION = 16
# Where steps are gone through backward, the facts of so many are kept.
KEPT = 20_000


class Verb(Enum):
    """What is done with a channel."""

    SEND = "send to"
    RECEIVE = "receive from"
    CLOSE = "close"
    LENGTH = "take the length of"


VERBS = {"send": Verb.SEND, "receive": Verb.RECEIVE, "close": Verb.CLOSE, "len": Verb.LENGTH, "cap": Verb.LENGTH}


class Place(NamedTuple):
    """A line of a function; 0 where the line is not known."""

    function: str
    line: int


class Source(NamedTuple):
    """An object of a goroutine or a channel that a step touched, and the step that had written it last, or an empty text."""

    object: str
    of: str
    step: str
    wrote: bool


class Fact(NamedTuple):
    """A kept step with what it did: a channel that it used or made, variables that it gave values, goroutines that it reached."""

    step: str
    kind: Kind
    place: Place
    verb: Optional[Verb]
    channel: str
    made: str
    given: tuple[str, ...]
    prints: bool
    reached: tuple[str, ...]
    sources: tuple[Source, ...]

    @property
    def line(self) -> int:
        return self.place.line

    @property
    def owner(self) -> str:
        return step_owner(self.step)

    def sends(self) -> bool:
        """Whether a value went into the channel."""
        return self.verb is Verb.SEND and not self.kind.waits and self.kind.word is not KindWord.FAULT

    def receives(self) -> bool:
        """Whether a value, or the zero value of a closed channel, came out of it."""
        return self.verb is Verb.RECEIVE and not self.kind.waits

    def wrote_last(self, goroutine: str) -> str:
        """The step that had written a goroutine last, or an empty text."""
        return next((it.step for it in self.sources if it.object == "goroutine" and it.of == goroutine), "")

    @property
    def woke(self) -> tuple[str, ...]:
        """The steps with which the goroutines that it let go on had begun to wait."""
        return tuple(self.wrote_last(name) for name in self.reached) if self.kind.word is not KindWord.GO else ()


def fact_of(told: dict[str, Any]) -> Fact:
    """A row of `about`."""
    channel = told["channel"] or {"operation": "", "name": ""}
    return Fact(
        told["id"], kind_of(told["kind"]), Place(told["at"]["function"], told["at"]["line"]), VERBS.get(channel["operation"]),
        channel["name"], told["made"] or "", tuple(told["given"]), told["prints"], tuple(told["reached"]),
        tuple(Source(it["object"], it["of"], it["step"] or "", it["wrote"]) for it in told["sources"]),
    )  # fmt: skip


def facts_of(reply: Reply) -> list[Fact]:
    """The rows of an answer to `about`."""
    return [fact_of(told) for told in reply.parts["about"]]


class Facts:
    """The facts of a session's kept steps, as far as they were asked.

    `rows` are those of steps that stand one after the other in the log, the last of them at the place `end`, counted from 1.
    """

    def __init__(self, asked: Callable[[], Core], kept: Callable[[], int]) -> None:
        """`asked` gives the session that answers, and `kept` the number of kept steps."""
        self.asked = asked
        self.kept = kept
        self.forget()

    def forget(self) -> None:
        self.known: dict[str, Fact] = {}
        self.forget_places()

    def forget_places(self) -> None:
        """Takes account of another order of the steps: of each the same is told."""
        self.rows: list[Fact] = []
        self.end = 0
        self.places: dict[str, int] = {}

    def took_back(self, steps: Sequence[str], before: int) -> None:
        """Takes account of steps that went back; `before` is how many were kept."""
        gone = set(steps)
        for step in steps:
            self.known.pop(step, None)
        if self.end != before:
            self.forget_places()
            return
        self.rows = [it for it in self.rows if it.step not in gone]
        self.end, self.places = before - len(gone), {}

    # What is asked.

    def between(self, first: int, last: int) -> list[Fact]:
        """The facts of the steps from one place of the log to another."""
        found = list(self.seen(first, last))
        self.known.update((it.step, it) for it in found)
        return found

    def seen(self, first: int, last: int) -> Iterator[Fact]:
        """The same one after the other, of which none is kept."""
        for at in range(first, last + 1, PORTION):
            yield from self.read([f"about {at} {min(last, at + PORTION - 1)}"])

    def read(self, queries: Sequence[str]) -> list[Fact]:
        core = self.asked()
        replies = zip(queries, core.process.ask_all(queries))
        return [fact for query, reply in replies for fact in core.parsed(query, reply, facts_of)]

    def tail(self, count: int) -> list[Fact]:
        """The facts of the last so many kept steps, in the order of the log."""
        kept = self.kept()
        first = max(1, kept - count + 1)
        if self.end < first - 1:
            self.rows, self.end = [], first - 1
        begin = self.end - len(self.rows) + 1
        if self.end < kept or first < begin:
            newer, older = self.between(self.end + 1, kept), self.between(first, begin - 1)
            self.rows, self.end, self.places = [*older, *self.rows, *newer], kept, {}
        return self.rows[len(self.rows) - (kept - first + 1) :]

    def backward(self) -> Iterator[Fact]:
        """The facts of all kept steps, the last one first; those of the last ones are kept."""
        kept, count = self.kept(), 0
        while count < min(kept, KEPT):
            more = min(kept - count, max(FIRST_PORTION, min(count, PORTION)))
            yield from reversed(self.tail(count + more)[:more])
            count += more
        for last in range(kept - count, 0, -PORTION):
            yield from reversed(list(self.seen(max(1, last - PORTION + 1), last)))

    def of(self, step: str) -> Optional[Fact]:
        """The fact of a step; none where it is not kept."""
        self.of_all([step])
        return self.known.get(step)

    def of_all(self, steps: Sequence[str]) -> list[Fact]:
        """The facts of those of some steps that are kept."""
        unknown = [step for step in steps if step not in self.known]
        if unknown:
            self.known.update((it.step, it) for it in self.read(["about " + step for step in unknown]))
        return [self.known[step] for step in steps if step in self.known]

    def place(self, step: str) -> int:
        """The place of a step in the log, counted from 1; 0 where it is not among those that were told one after the other."""
        if not self.places:
            self.places = {it.step: at for at, it in enumerate(self.rows, self.end - len(self.rows) + 1)}
        return self.places.get(step, 0)

    def closed_by(self, fault: Fact) -> Optional[Fact]:
        """The step that closed the channel at which a step faulted; none where it met no closed one."""
        wrote = [it.step for it in fault.sources if it.of == fault.channel and it.step] if fault.channel else []
        return next((it for it in self.of_all(wrote) if it.kind.word is KindWord.CLOSE), None)

    def waker(self, wait: str) -> str:
        """The step that ended a wait; an empty text where none has, or it is not found."""
        owner = step_owner(wait)
        after = self.of(step_of(owner, step_number(wait) + 1))
        if after:
            by = after.wrote_last(owner)
            return by if by != wait else ""
        return next((it.step for it in reversed(self.rows) if owner in it.reached and wait in it.woke), "")
