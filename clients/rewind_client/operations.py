"""The functions that a statement calls, as its tokens tell it."""
from __future__ import annotations

from collections.abc import Iterator, Sequence
from dataclasses import dataclass

from .tokens import Token

LENGTHS = ("len", "cap")


@dataclass(frozen=True)
class Call:
    """A call, or what `go` starts. `width` is the length of its statement's tokens."""

    function: str
    line: int
    starts: bool = False
    width: int = 0


def calls_of(part: Sequence[Token], line: int) -> Iterator[Call]:
    """The calls among the tokens of a statement that stands on a line."""
    starts = part[0].text == "go" if part else False
    width = sum(len(token.text) for token in part)
    for place in range(len(part) - 1):
        if part[place].is_name and part[place + 1].text == "(":
            yield Call(part[place].text, line, starts and place == 1, width)


def parameters_of(part: Sequence[Token]) -> list[str]:
    """The names of parameters, from the tokens between the parentheses of a heading."""
    expected, depth, names = True, 0, []
    for token in part:
        depth += {"(": 1, ")": -1}.get(token.text, 0)
        if depth == 0 and token.text == ",":
            expected = True
        elif expected and token.is_name:
            names.append(token.text)
            expected = False
    return names
