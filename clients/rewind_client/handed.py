"""The values that steps handed to goroutines that waited for them.

In a second session such a step is taken back, and the wait that it ended. There the sender waits itself, or fills the buffer, and the
channel shows its value.
"""
from __future__ import annotations

from collections.abc import Callable, Sequence
from contextlib import AbstractContextManager, ExitStack
from typing import AbstractSet, Optional

from . import replies
from .core import Core, step_words
from .facts import Fact, Facts
from .names import step_owner
from .replies import Channel, KindWord

SHOWING = frozenset((KindWord.SEND_WAIT, KindWord.SELECT_WAIT, KindWord.BUFFER))


class Handed:
    """Finds such values in sessions of its own."""

    def __init__(self, place: Callable[[str], int], copied: Callable[[], AbstractContextManager[Core]]) -> None:
        """`place` gives the place of a step in the log, and `copied` a session that stands behind the log."""
        self.place = place
        self.copied = copied

    def values(self, handed: Sequence[Fact]) -> dict[str, str]:
        """The values of some steps. They are asked for from the last one on, so that what came after one need not be taken again."""
        found: dict[str, str] = {}
        with ExitStack() as stack:
            core: Optional[Core] = None
            for fact in reversed(handed):
                if core is None or core.process.ended or not core.ask("back " + fact.step).is_ok:
                    core = stack.enter_context(self.copied())
                    core.back(fact.step)
                found[fact.step] = self.value(core, fact)
        return found

    def value(self, core: Core, fact: Fact) -> str:
        """The value of a step that was taken back; an empty text where the sender cannot come there without the wait."""
        before, gone = self.place(fact.step), core.dependents(fact.woke[0])
        between = Facts(lambda: core, lambda: core.kept).of_all([step for step in gone if self.place(step) < before])
        core.back(fact.woke[0])
        own = [it for it in between if it.owner == fact.owner]
        taken, is_whole = retaken(core, own, set(gone)), len(own) == sum(step_owner(step) == fact.owner for step in gone)
        value = shown(core, fact) if is_whole and taken == len(own) else ""
        for _ in range(taken):
            core.undo()
        if retaken(core, between, set()) < len(between):
            core.process.end()
        return value


def retaken(core: Core, steps: Sequence[Fact], gone: AbstractSet[str]) -> int:
    """Takes steps again, up to the first that does not do the same: how many are taken."""
    for number, fact in enumerate(steps):
        reply = core.ask(step_words(fact.owner, fact.kind.clause))
        if not reply.is_ok:
            return number
        again = Facts(lambda: core, lambda: core.kept).of(fact.step)
        if again is None or not does_the_same(again, fact, gone):
            core.undo()
            return number
    return len(steps)


def does_the_same(one: Fact, other: Fact, gone: AbstractSet[str]) -> bool:
    """Whether a step did the same as another one, with what it met: a value, or a goroutine that waits, which came of no step that went."""
    same = one._replace(sources=()) == other._replace(sources=())
    return same and one.kind.word is not KindWord.LENGTH and met(one) == met(other) and not met(one) & gone


def met(fact: Fact) -> set[str]:
    """The steps that put what a step took out of a buffer, or that began the waits that it ended."""
    return {it.step for it in fact.sources if it.object == "slot"} | set(fact.woke)


def shown(core: Core, fact: Fact) -> str:
    """The value that a channel shows where the sender waits itself, or fills the buffer."""
    reply, value = core.ask(step_words(fact.owner)), ""
    if reply.is_ok:
        channel = core.channel(fact.channel)
        if channel and replies.stepped(reply).kind.word in SHOWING:
            value = sent_by(channel, fact.owner, fact.kind.clause) or (channel.items or ("",))[-1]
        core.undo()
    return value


def sent_by(channel: Channel, sender: str, clause: int = 0) -> str:
    """The value with which a sender waits, in a clause of a select where it stands at one."""
    return next((it.value for it in channel.senders if it.goroutine == sender and it.clause == clause), "")
