"""The values that steps moved over channels, and the lines that they printed.

Rewind tells what a channel held before a step and after it. Only of a value that was handed to a goroutine that waited no state tells.
"""
from __future__ import annotations

from collections.abc import Callable, Iterable, Sequence
from contextlib import AbstractContextManager
from typing import NamedTuple

from . import replies
from .core import Core
from .facts import Fact, Verb
from .handed import Handed, sent_by
from .replies import Channel, KindWord, Reply

# For more looks than a few, a second session that goes back once takes less time where looks times steps of the log are many.
FEW = 100
MANY = 20_000_000


class Look(NamedTuple):
    """A channel behind so many steps, in which the value of a step is seen, and how."""

    place: int
    channel: str
    read: Callable[[Channel], str]


class Values:
    """The values that steps moved, as far as they were asked."""

    def __init__(
        self, asked: Callable[[], Core], place: Callable[[str], int], copied: Callable[[], AbstractContextManager[Core]]
    ) -> None:
        """`asked` gives the session that answers, `place` the place of a step in its log or 0, and `copied` a second session."""
        self.asked = asked
        self.place = place
        self.copied = copied
        self.known: dict[str, str] = {}

    def took_back(self, steps: Iterable[str]) -> None:
        for step in steps:
            self.known.pop(step, None)

    def forget(self) -> None:
        self.known = {}

    def of(self, fact: Fact) -> str:
        """The value that a step sent or received, or with which it waits; an empty text where there is none or it is not known."""
        self.learn([fact])
        return self.known[fact.step]

    def learn(self, facts: Sequence[Fact]) -> None:
        """Asks for the values of some steps, which stand in the order of the log, in one go."""
        new = [fact for fact in facts if fact.step not in self.known]
        if not new:
            return
        self.known.update(dict.fromkeys((fact.step for fact in new), ""))
        looks = {fact.step: look for fact in new for look in self.looks(fact)}
        for (step, look), reply in zip(looks.items(), self.seen(list(looks.values()))):
            if reply.is_ok:
                self.known[step] = look.read(replies.channel(look.channel, reply))
        self.known.update(Handed(self.place, self.copied).values([fact for fact in new if fact.sends() and fact.woke]))

    def seen(self, looks: Sequence[Look]) -> list[Reply]:
        """What channels held, behind ever more steps. For each look back Rewind goes through the log once."""
        core = self.asked()
        if len(looks) <= FEW or len(looks) * core.kept < MANY:
            return core.process.ask_all([f"at {look.place} chan {look.channel}" for look in looks])
        with self.copied() as copy:
            return went_back(copy, looks)

    def looks(self, fact: Fact) -> list[Look]:
        """Where the value of a step is seen; nowhere where it moved none, or handed it over."""
        place = self.place(fact.step) if fact.channel and fact.verb in (Verb.SEND, Verb.RECEIVE) else 0
        if not place or fact.kind.word in (KindWord.FAULT, KindWord.CLOSED, KindWord.RECEIVE_WAIT):
            return []
        if fact.verb is Verb.RECEIVE:
            return [Look(place - 1, fact.channel, first_out)]
        if fact.kind.waits:
            return [Look(place, fact.channel, lambda channel: sent_by(channel, fact.owner))]
        return [] if fact.woke else [Look(place, fact.channel, lambda channel: channel.items[-1] if channel.items else "")]

    def line(self, fact: Fact) -> str:
        """The line that a step printed; an empty text where it printed none or that is not known."""
        place = self.place(fact.step) if fact.prints else 0
        reply = self.asked().process.ask(f"at {place} text {fact.owner}") if place else None
        return replies.lines_within(reply)[-1] if reply and reply.is_ok else ""


def went_back(core: Core, looks: Sequence[Look]) -> list[Reply]:
    """The same in a session that is taken back from the end of its log."""
    found: list[Reply] = []
    for look in reversed(looks):
        commands = ["undo"] * (core.kept - look.place) + ["chan " + look.channel]
        found.append(core.ask_all(commands)[-1])
    return found[::-1]


def first_out(channel: Channel) -> str:
    """The value that the next receive takes."""
    return [*channel.items, *(it.value for it in channel.senders), ""][0]
