"""What a user watches: variables of a name, and a channel over which something goes."""
from __future__ import annotations

from collections.abc import Callable
from enum import Enum
from typing import NamedTuple, Union

from .facts import Fact, Verb
from .replies import KindWord


class Watch(NamedTuple):
    """The variables of one name in a goroutine."""

    goroutine: str
    variable: str

    def did(self, _name_of: Callable[[str], str], _waits: bool) -> str:
        """What a step did that is watched."""
        return f"gave {self.variable} a value"

    def is_done_by(self, fact: Fact) -> bool:
        return fact.owner == self.goroutine and self.variable in fact.given


class Way(Enum):
    """Into a channel, or out of it."""

    SEND = "send"
    RECEIVE = "recv"


VERBS = {Way.SEND: Verb.SEND, Way.RECEIVE: Verb.RECEIVE}


class ChannelWatch(NamedTuple):
    """The sends to a channel, or the receives from it; one that has to wait counts when it begins to."""

    channel: str
    way: Way

    def did(self, name_of: Callable[[str], str], waits: bool) -> str:
        does = {
            (Way.SEND, False): "sent a value to %s",
            (Way.SEND, True): "began to wait to send to %s",
            (Way.RECEIVE, False): "received from %s",
            (Way.RECEIVE, True): "began to wait to receive from %s",
        }
        return does[self.way, waits] % name_of(self.channel)

    def is_done_by(self, fact: Fact) -> bool:
        return fact.channel == self.channel and fact.verb is VERBS[self.way] and fact.kind.word is not KindWord.FAULT


Watched = Union[Watch, ChannelWatch]
