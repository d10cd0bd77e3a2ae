"""Replies as values, by their parts. An answer with other parts gives a KeyError, a TypeError or a ValueError."""
from __future__ import annotations

import gc
import json
from collections.abc import Iterator
from contextlib import contextmanager
from enum import Enum
from functools import lru_cache
from typing import Any, NamedTuple

# What the plain program says to a line that is no command.
NO_COMMAND = "? bad command"
NOT_DONE = frozenset(("refused", "partly", "breaks"))
# Of what is read from a longer line none can be garbage, which would be looked for again and again.
LONG = 1 << 20
SHORT = 120
DECODER = json.JSONDecoder()


class Reply(NamedTuple):
    """What is answered to a line: its parts, and the text that the plain program writes."""

    parts: dict[str, Any]
    text: str

    @property
    def name(self) -> str:
        """Which reply it is; an empty text where the line was no command."""
        found: str = self.parts.get("answer", "")
        return found

    @property
    def is_ok(self) -> bool:
        """Whether the command was done."""
        return "answer" in self.parts and self.parts["answer"] not in NOT_DONE

    @property
    def code(self) -> str:
        """The code of a refusal, or an empty text."""
        found: str = self.parts.get("code", "")
        return found

    @property
    def lines(self) -> list[str]:
        return self.text[:-1].split("\n")

    @property
    def last(self) -> str:
        """The last line of the text."""
        return self.text[:-1].rpartition("\n")[2]


def reply_of(line: str) -> Reply:
    """What a line of the protocol says. A query has no text: for the plain program it is no command."""
    if len(line) < SHORT:
        return same_reply(line)
    with uncollected(len(line)):
        return read(line)


def read(line: str) -> Reply:
    told, end = DECODER.raw_decode(line)
    if end != len(line) or not isinstance(told, dict) or not told.keys() & {"reply", "about", "error"}:
        raise ValueError(line[:80])
    parts = {} if "error" in told else told.get("reply", told)
    return Reply(parts, told.get("text", NO_COMMAND + "\n"))


# The same short lines come over and over where many schedules are taken.
same_reply = lru_cache(maxsize=4096)(read)


@contextmanager
def uncollected(length: int) -> Iterator[None]:
    """Looks for no garbage while much is read."""
    collects = gc.isenabled() and length > LONG
    if collects:
        gc.disable()
    try:
        yield
    finally:
        if collects:
            gc.enable()


class KindWord(Enum):
    """What a step did, by the first word of its kind."""

    PURE = "pure"
    CALL = "call"
    RETURN = "return"
    EXIT = "exit"
    GO = "go"
    MAKE = "make"
    LENGTH = "length"
    HAND = "hand"
    MEET = "meet"
    BUFFER = "buffer"
    TAKE = "take"
    CLOSED = "closed"
    SEND_WAIT = "send-wait"
    RECEIVE_WAIT = "recv-wait"
    PICK = "pick"
    DEFAULT = "default"
    SELECT_WAIT = "select-wait"
    CLOSE = "close"
    FAULT = "fault"


WAITS = frozenset((KindWord.SEND_WAIT, KindWord.RECEIVE_WAIT, KindWord.SELECT_WAIT))


class Kind(NamedTuple):
    """The kind of a step: `clause` is that of a pick, else 0; `fault` is the name of a fault, else empty."""

    word: KindWord
    clause: int = 0
    fault: str = ""

    @property
    def waits(self) -> bool:
        return self.word in WAITS

    @property
    def stops(self) -> bool:
        """Whether the program goes no further after such a step."""
        return self.word in (KindWord.EXIT, KindWord.FAULT)

    def __str__(self) -> str:
        return " ".join([self.word.value] + [str(more) for more in (self.clause, self.fault) if more])


class Entry(NamedTuple):
    """A step with its kind."""

    step: str
    kind: Kind


class Reason(Enum):
    """Why a run ended."""

    ENDED = "ended"
    FAULT = "fault"
    COUNT = "count"
    STUCK = "stuck"
    FULL = "full"
    BREAK = "break"
    MEMORY = "memory"


class Ran(NamedTuple):
    """The end of a run; `line` is that of a breakpoint, else 0."""

    taken: int
    reason: Reason
    line: int = 0


class State(Enum):
    READY = "ready"
    WAITING = "waiting"
    DONE = "done"


class Variable(NamedTuple):
    name: str
    value: str


class Frame(NamedTuple):
    function: str
    variables: tuple[Variable, ...]

    def values_of(self, name: str) -> tuple[str, ...]:
        """The values of the variables of a name, each once. There may be several in blocks of their own."""
        return tuple(dict.fromkeys(it.value for it in self.variables if it.name == name))

    def value_of(self, name: str) -> str:
        """The value of the variable of a name; an empty text where none has one, or several have different ones."""
        values = self.values_of(name)
        return values[0] if len(values) == 1 else ""


class Goroutine(NamedTuple):
    """A goroutine as `show` tells it; the line is that of its next step, 0 where it is done. The innermost frame is the first."""

    name: str
    state: State
    steps: int
    line: int
    frames: tuple[Frame, ...]

    @property
    def last_step(self) -> str:
        return f"{self.name}#{self.steps}"


class Waiter(NamedTuple):
    """A goroutine in the queue of a channel: the clause of its select or 0, and the value that it sends or an empty text."""

    goroutine: str
    clause: int = 0
    value: str = ""


class Channel(NamedTuple):
    """A channel as `chan` tells it."""

    name: str
    capacity: int
    is_open: bool
    items: tuple[str, ...]
    senders: tuple[Waiter, ...]
    receivers: tuple[Waiter, ...]


@lru_cache(maxsize=1024)
def kind_of(text: str) -> Kind:
    word, _, rest = text.partition(" ")
    if word == KindWord.PICK.value:
        return Kind(KindWord.PICK, clause=int(rest))
    if word == KindWord.FAULT.value:
        return Kind(KindWord.FAULT, fault=rest)
    if rest:
        raise ValueError(text)
    return Kind(KindWord(word))


def entry_of(told: dict[str, Any]) -> Entry:
    return Entry(told["id"], kind_of(told["kind"]))


def stepped(reply: Reply) -> Entry:
    """The step that `step` took."""
    return entry_of(reply.parts)


def ran(reply: Reply) -> Ran:
    """How a `run` ended."""
    return Ran(reply.parts["steps"], Reason(reply.parts["end"]), reply.parts["line"] or 0)


def undone(reply: Reply) -> str:
    """The step that `undo` took back."""
    found: str = reply.parts["id"]
    return found


def steps(reply: Reply) -> list[str]:
    """The steps of `back`, `redo`, `deps` and `causes`; also those that were done before there was no memory."""
    return list(reply.parts["ids"])


def steps_done(reply: Reply) -> list[str]:
    """The steps that a refused command has done; most have done none."""
    return steps(reply) if reply.name == "partly" else []


def steps_named(reply: Reply) -> list[str]:
    """The steps that a reply names in its last line."""
    if reply.name in ("stepped", "undone"):
        return [undone(reply)]
    if reply.name == "breaks":
        return [reply.parts["earlier"], reply.parts["later"]]
    return steps(reply) if "ids" in reply.parts else []


def lines_within(reply: Reply) -> list[str]:
    """The lines of `text` and `console`."""
    return list(reply.parts["lines"])


def log(reply: Reply) -> list[Entry]:
    """The steps of `log`."""
    with uncollected(len(reply.text)):
        return [Entry(told["id"], kind_of(told["kind"])) for told in reply.parts["steps"]]


def goroutine(reply: Reply) -> Goroutine:
    """The goroutine of `show`, with its frames, the innermost first."""
    told = reply.parts
    frames = tuple(frame(one) for one in told["frames"])
    return Goroutine(told["goroutine"], State(told["status"]), told["steps"], told["line"] or 0, frames)


def frame(told: dict[str, Any]) -> Frame:
    return Frame(told["function"], tuple(Variable(one["name"], one["value"]) for one in told["variables"]))


def channel(name: str, reply: Reply) -> Channel:
    """The channel of `chan`."""
    told = reply.parts
    senders, receivers = (tuple(waiter(one) for one in told[side]) for side in ("senders", "receivers"))
    return Channel(name, told["capacity"], not told["closed"], tuple(told["items"]), senders, receivers)


def waiter(told: dict[str, Any]) -> Waiter:
    return Waiter(told["goroutine"], told["clause"] or 0, told.get("value") or "")
