"""Which values went over which channel: of each the step of its sender, and the step of its receiver.

A send or a receive that waited counts by the step in which it began to wait.
"""
from __future__ import annotations

from collections.abc import Iterable, Sequence

from .facts import Fact, Verb
from .replies import KindWord


class Transfers:
    """The values that went over some channels."""

    def __init__(self, facts: Iterable[Fact], channels: Sequence[str]) -> None:
        # The steps of the senders and of the receivers, in the order of the messages, and those that put a value into the buffer.
        self.sent: dict[str, list[str]] = {name: [] for name in channels}
        self.taken: dict[str, list[str]] = {name: [] for name in channels}
        self.put: dict[str, list[str]] = {name: [] for name in channels}
        for fact in facts:
            if fact.channel in self.sent:
                self.keep(fact)

    def keep(self, fact: Fact) -> None:
        """A value that a step sent or received, and the wait that it ended."""
        channel, wait = fact.channel, next(iter(fact.woke), "")
        if fact.sends():
            self.sent[channel].append(fact.step)
            if wait:
                self.taken[channel].append(wait)
            else:
                self.put[channel].append(fact.step)
        elif fact.receives() and fact.kind.word is not KindWord.CLOSED and fact.verb is Verb.RECEIVE:
            self.taken[channel].append(fact.step)
            if wait:
                self.sent[channel].append(wait)
                self.put[channel].append(wait)
