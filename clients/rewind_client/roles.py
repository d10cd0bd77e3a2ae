"""What each goroutine may still do with each channel, as the text ahead of its frames tells it.

It is found by letting channels flow until nothing is new: from the variables of the frames over assignments, calls, returns, starts
of goroutines and messages. What flows through a message is all that may ever be sent over its channel. So what is not found here
can never come, and what is found may still come. ANY stands for a channel that cannot be told: it may be each of them.
"""
from __future__ import annotations

from collections.abc import Iterator, Sequence
from dataclasses import dataclass, field
from typing import Optional

from .facts import Place, Verb
from .flows import Calling, Expression, Form, Giving, Use
from .names import is_channel
from .program import Program
from .replies import Channel, Goroutine, State
from .walk import Function

ANY = "any channel"
BEHIND = 0.5
NONE: frozenset[int] = frozenset()


@dataclass
class Life:
    """A frame, or the calls of a function that are still to come: the function, and the place from which its text is ahead.

    `held` are the tokens of expressions that may be done already, with a value that no variable shows yet, and `waits_at` is the
    channel at which it waits, where that is one.
    """

    root: str
    function: Function
    begin: float = 0
    held: frozenset[int] = NONE
    variables: dict[str, set[str]] = field(default_factory=dict)
    waits_at: str = ""

    def is_ahead(self, at: float) -> bool:
        return at >= self.begin or self.is_within(at)

    def is_within(self, at: float) -> bool:
        """Whether it stands in a loop that holds the place too."""
        return any(first <= self.begin < last and first <= at < last for first, last in self.function.loops)


class Roles:
    """What the goroutines of a state may still do."""

    def __init__(self, program: Program, goroutines: Sequence[Goroutine], places: Sequence[Sequence[Place]], channels: Sequence[Channel]):
        """`places` are those of the frames of each goroutine, the innermost first."""
        self.program = program
        self.carries = program.carries
        self.contents: dict[str, set[str]] = {it.name: sent_over(it) for it in channels}
        self.returned: dict[tuple[str, str], set[str]] = {}
        self.calls: dict[tuple[str, str], Life] = {}
        queued = waiting_at(channels)
        self.lives: list[Life] = []
        for goroutine, of_frames in zip(goroutines, places):
            self.lives += frames_of(program, goroutine, of_frames, queued.get(goroutine.name, {}), self.carries)
        self.is_new = True
        while self.is_new:
            self.is_new = False
            for life in list(self.lives):
                self.flow(life)
        self.may: dict[str, set[tuple[Verb, str]]] = {}
        for life in self.lives:
            self.may.setdefault(life.root, set()).update(self.uses(life))

    def verbs(self, goroutine: str, channel: str) -> frozenset[Verb]:
        """What a goroutine, or one that it starts, may still do with a channel."""
        found = self.may.get(goroutine, set())
        return frozenset(verb for verb in Verb if (verb, channel) in found or (verb, ANY) in found)

    # The flow.

    def flow(self, life: Life) -> None:
        """Lets the channels of a frame flow on by one turn."""
        flows = life.function.flows
        for use in flows.uses:
            if use.value and life.is_ahead(use.at):
                for channel in self.value(life, use.channel):
                    self.add(self.contents.setdefault(channel, set()), self.value(life, use.value))
        for giving in flows.givings:
            if life.is_ahead(giving.at):
                self.give(life, giving)
        for calling in flows.callings:
            if life.is_ahead(calling.at) and calling.function in self.program.functions:
                self.call(life, calling)

    def give(self, life: Life, giving: Giving) -> None:
        key = (life.root, life.function.name)
        kept = life.variables.setdefault(giving.variable, set()) if giving.variable else self.returned.setdefault(key, set())
        self.add(kept, self.value(life, giving.value))

    def call(self, life: Life, calling: Calling) -> None:
        """A call that is ahead: its function has a life of its own, one for all such calls of a goroutine."""
        key = (life.root, calling.function)
        called = self.calls.get(key)
        if called is None:
            called = self.calls[key] = Life(life.root, self.program.functions[calling.function])
            self.lives.append(called)
            self.is_new = True
        for parameter, argument in zip(called.function.parameters, calling.arguments):
            self.add(called.variables.setdefault(parameter, set()), self.value(life, argument))

    def add(self, kept: set[str], more: set[str]) -> None:
        if not more <= kept:
            kept |= more
            self.is_new = True

    def value(self, life: Life, expression: Optional[Expression]) -> set[str]:
        """The channels that an expression may have as its value."""
        if expression is None:
            return set()
        if expression.form is Form.NAME:
            return life.variables.get(expression.name, set())
        if expression.form is Form.MAKE:
            return {f"made at {expression.token} for {life.root}"}
        held = {ANY} if expression.token in life.held else set()
        if expression.form is Form.CALL:
            return held | self.returned.get((life.root, expression.name), set())
        for channel in self.value(life, expression.inner):
            held |= self.contents.get(channel, set())
        return held | self.contents.get(ANY, set()) if self.carries else set()

    def uses(self, life: Life) -> Iterator[tuple[Verb, str]]:
        """The uses of channels that are ahead of a frame."""
        for use in life.function.flows.uses:
            if life.is_ahead(use.at):
                for channel in self.value(life, use.channel):
                    yield use.verb, channel
                if use.is_range and life.is_within(use.at) and is_kept_unseen(life.function, use):
                    yield use.verb, life.waits_at or ANY


def sent_over(channel: Channel) -> set[str]:
    """The channels that are on their way over a channel."""
    values = [*channel.items, *(it.value for it in channel.senders)]
    return {value for value in values if is_channel(value)}


def waiting_at(channels: Sequence[Channel]) -> dict[str, dict[str, Verb]]:
    """The channels at which each goroutine waits, with what it waits to do."""
    found: dict[str, dict[str, Verb]] = {}
    for channel in channels:
        for verb, queue in ((Verb.SEND, channel.senders), (Verb.RECEIVE, channel.receivers)):
            for one in queue:
                found.setdefault(one.goroutine, {})[channel.name] = verb
    return found


def frames_of(
    program: Program, goroutine: Goroutine, places: Sequence[Place], wishes: dict[str, Verb], carries: bool
) -> Iterator[Life]:
    """The frames of a goroutine as lives."""
    called = ""
    for number, (frame, place) in enumerate(zip(goroutine.frames, places)):
        function = program.functions.get(frame.function)
        if function is None:
            continue
        life = Life(goroutine.name, function)
        for variable in frame.variables:
            if is_channel(variable.value):
                life.variables.setdefault(variable.name, set()).add(variable.value)
        first, last = standing(life, place.line, called, goroutine.state if not number else State.READY, wishes)
        life.begin = first
        life.held = frozenset(done_before(function, place.line, last)) if carries else NONE
        life.waits_at = next(iter(wishes)) if not number and len(wishes) == 1 else ""
        called = frame.function
        yield life


def standing(life: Life, line: int, called: str, state: State, wishes: dict[str, Verb]) -> tuple[float, float]:
    """The first and the last place at which a frame may stand: behind a call, at the use of a channel, or on its line."""
    function, flows = life.function, life.function.flows
    on_line = [it for it in function.parts if it.line == line]
    if not on_line:
        return 0, max(it.end for it in function.parts)
    at: list[float] = []
    if called:
        at = [it.at + BEHIND for it in flows.callings if it.line == line and it.function == called]
    elif state is State.WAITING and not any(it.case for it in on_line):
        at = [it.at for it in flows.uses if it.line == line and may_wait(life, it, wishes)]
    if at:
        return min(at), max(at)
    return min(it.begin for it in on_line), max(it.end for it in on_line)


def may_wait(life: Life, use: Use, wishes: dict[str, Verb]) -> bool:
    """Whether a goroutine may wait at a use of a channel."""
    if use.channel is None or use.channel.form is not Form.NAME:
        return use.verb in wishes.values()
    return any(wishes.get(channel) is use.verb for channel in life.variables.get(use.channel.name, set()))


def done_before(function: Function, line: int, last: float) -> Iterator[int]:
    """The tokens of receives and calls of a line that may be done while their statement is not."""
    for use in function.flows.uses:
        if use.line == line and use.at < last and use.verb is Verb.RECEIVE:
            yield use.token
    for calling in function.flows.callings:
        if calling.line == line and calling.at < last:
            yield calling.token


def is_kept_unseen(function: Function, use: Use) -> bool:
    """Whether the channel over which a range goes may be another one than its variable holds now, or stands in none."""
    if use.channel is None or use.channel.form is not Form.NAME:
        return True
    return any(it.variable == use.channel.name for it in function.flows.givings if it.value is not None and it.at > use.at)
