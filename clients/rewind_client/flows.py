"""Where channels may go: what each part of a function does with values that may be channels.

Only four expressions have a channel as their value: a variable, a receive, a call and `make`. `token` is the place of a token in
the source. `at` tells what is done before what: operands before what uses them, and an assignment or a send behind all of its part.
"""
from __future__ import annotations

from collections.abc import Iterator, Sequence
from dataclasses import dataclass
from enum import Enum
from typing import NamedTuple, Optional

from .facts import Verb
from .operations import LENGTHS
from .tokens import Token

LAST = 0.25
TINY = 1e-7


class Form(Enum):
    NAME = "name"
    RECEIVE = "receive"
    CALL = "call"
    MAKE = "make"


class Expression(NamedTuple):
    """An expression whose value may be a channel: `name` is that of a variable or function, `inner` what a receive is from."""

    form: Form
    token: int
    name: str = ""
    inner: "Optional[Expression]" = None


@dataclass(frozen=True)
class Part:
    """A statement, or a part of a heading, or a case of a select: its tokens from `begin` on; `line` is that of its statement."""

    line: int
    begin: int
    end: int
    case: int = 0


@dataclass(frozen=True)
class Use:
    """A use of a channel; `value` is what is sent, and `case` the number of a case of a select, else 0. A range keeps its channel."""

    token: int
    at: float
    line: int
    verb: Verb
    channel: Optional[Expression]
    value: Optional[Expression] = None
    is_range: bool = False
    case: int = 0

    @property
    def variable(self) -> str:
        """The variable that holds the channel; an empty text where that is another expression."""
        return self.channel.name if self.channel and self.channel.form is Form.NAME else ""


@dataclass(frozen=True)
class Giving:
    """A variable gets a value; without a name it is what a function returns."""

    at: float
    line: int
    variable: str
    value: Expression


@dataclass(frozen=True)
class Calling:
    """A call, or what `go` starts."""

    token: int
    at: float
    line: int
    function: str
    arguments: tuple[Optional[Expression], ...]


class Flows(NamedTuple):
    """All that the parts of a function do."""

    uses: list[Use]
    givings: list[Giving]
    callings: list[Calling]


def flows_of(tokens: Sequence[Token], parts: Sequence[Part]) -> Flows:
    """What the parts of a function do, in the order of the source."""
    found = Flows([], [], [])
    for part in parts:
        reading = Reading(tokens, part)
        found.uses.extend(reading.uses())
        found.givings.extend(reading.givings())
        found.callings.extend(reading.callings())
    return found


class Reading:
    """A part that is being read."""

    def __init__(self, tokens: Sequence[Token], part: Part) -> None:
        self.tokens = tokens
        self.part = part

    def text(self, at: int) -> str:
        return self.tokens[at].text if self.part.begin <= at < self.part.end else ""

    def places(self) -> range:
        return range(self.part.begin, self.part.end)

    # What is done.

    def uses(self) -> Iterator[Use]:
        line, end, case = self.part.line, self.part.end, self.part.case
        for at in self.places():
            text = self.text(at)
            if text == "<-" and self.is_send(at):
                yield Use(at, end + LAST, line, Verb.SEND, self.whole(self.part.begin, at), self.whole(at + 1, end), case=case)
            elif text == "<-" and self.is_receive(at):
                channel, after = self.operand(at + 1)
                yield Use(at, after - at * TINY, line, Verb.RECEIVE, channel, case=case)
            elif text == "range":
                yield Use(at, end, line, Verb.RECEIVE, self.whole(at + 1, end), is_range=True)
            elif text == "close" and self.text(at + 1) == "(":
                yield Use(at, self.closing(at + 1), line, Verb.CLOSE, self.operand(at + 1)[0])

    def givings(self) -> Iterator[Giving]:
        line, begin, end = self.part.line, self.part.begin, self.part.end
        if self.text(begin) == "return":
            for value in self.between_commas(begin + 1, end):
                if value:
                    yield Giving(end + LAST, line, "", value)
        equals = next((at for at in self.places() if self.text(at) in ("=", ":=")), 0)
        if not equals:
            return
        targets = self.names(begin + (self.text(begin) == "var"), equals)
        if self.text(equals + 1) == "range":
            kept = self.whole(equals + 2, end)
            values: list[Optional[Expression]] = [Expression(Form.RECEIVE, equals + 1, inner=kept)] if kept else []
        else:
            values = self.between_commas(equals + 1, end)
        for target, value in zip(targets, values):
            if value:
                yield Giving(end + LAST, line, target, value)

    def callings(self) -> Iterator[Calling]:
        for at in self.places():
            if self.tokens[at].is_name and self.text(at + 1) == "(" and self.text(at) not in LENGTHS:
                end = self.closing(at + 1)
                yield Calling(at, end, self.part.line, self.text(at), tuple(self.between_commas(at + 2, end)))

    # Expressions.

    def is_send(self, at: int) -> bool:
        return at > self.part.begin and self.tokens[at - 1].ends_operand and self.text(at - 1) != "chan"

    def is_receive(self, at: int) -> bool:
        return self.text(at + 1) != "chan" and self.text(at - 1) != "chan"

    def whole(self, begin: int, end: int) -> Optional[Expression]:
        """The expression between two places, or none where its value is no channel."""
        found, after = self.operand(begin)
        return found if after == end else None

    def operand(self, at: int) -> tuple[Optional[Expression], int]:
        """The operand that begins there, and the place behind it."""
        if self.text(at) == "(":
            return self.operand(at + 1)[0], self.closing(at) + 1
        if self.text(at) == "<-":
            inner, after = self.operand(at + 1)
            return (Expression(Form.RECEIVE, at, inner=inner) if inner else None), after
        if not (self.part.begin <= at < self.part.end and self.tokens[at].is_name):
            return None, at + 1
        name = self.text(at)
        if self.text(at + 1) != "(":
            return Expression(Form.NAME, at, name), at + 1
        return Expression(Form.MAKE if name == "make" else Form.CALL, at, name), self.closing(at + 1) + 1

    def closing(self, at: int) -> int:
        """The place of the parenthesis that closes the one at a place."""
        depth = 0
        for place in range(at, self.part.end):
            depth += {"(": 1, ")": -1}.get(self.text(place), 0)
            if depth == 0:
                return place
        return self.part.end

    def between_commas(self, begin: int, end: int) -> list[Optional[Expression]]:
        """The values of a list, none for one that is no channel."""
        depth, first, found = 0, begin, []
        for at in range(begin, end):
            depth += {"(": 1, ")": -1}.get(self.text(at), 0)
            if depth == 0 and self.text(at) == ",":
                found.append(self.whole(first, at))
                first = at + 1
        return [*found, self.whole(first, end)] if end > begin else []

    def names(self, begin: int, end: int) -> list[str]:
        """The variables on the left of an assignment."""
        found, expected = [], True
        for at in range(begin, end):
            if self.text(at) == ",":
                expected = True
            elif expected and self.tokens[at].is_name:
                found.append(self.text(at))
                expected = False
        return found
