"""Values and operators: whole numbers of 64 bits, truth values, `struct{}` as `()`, and channels by their names."""
from __future__ import annotations

from collections.abc import Callable
from typing import Any

# A value of the program: a number, a truth value, `struct{}`, a channel, or None for a nil channel.
Value = Any


class Fault(Exception):
    """What stops the program; its text is the name of the fault."""


def wrapped(number: int) -> int:
    return (number + 2**63) % 2**64 - 2**63


def divided(x: int, y: int) -> tuple[int, int]:
    """Quotient and remainder, toward zero."""
    if y == 0:
        raise Fault("DivideByZero")
    quotient = abs(x) // abs(y)
    quotient = quotient if (x < 0) == (y < 0) else -quotient
    return quotient, x - quotient * y


def shifted(x: int, count: int, is_left: bool) -> int:
    if count < 0:
        raise Fault("NegativeShift")
    if is_left:
        return x << count if count < 64 else 0
    return x >> min(count, 64)


BINARY: dict[str, Callable[[Value, Value], Value]] = {
    "+": lambda x, y: x + y, "-": lambda x, y: x - y, "*": lambda x, y: x * y, "/": lambda x, y: divided(x, y)[0],
    "%": lambda x, y: divided(x, y)[1], "&": lambda x, y: x & y, "|": lambda x, y: x | y, "^": lambda x, y: x ^ y,
    "&^": lambda x, y: x & ~y, "<<": lambda x, y: shifted(x, y, True), ">>": lambda x, y: shifted(x, y, False),
    "==": lambda x, y: x == y, "!=": lambda x, y: x != y, "<": lambda x, y: x < y, "<=": lambda x, y: x <= y,
    ">": lambda x, y: x > y, ">=": lambda x, y: x >= y,
}
UNARY: dict[str, Callable[[Value], Value]] = {"+": lambda x: x, "-": lambda x: -x, "^": lambda x: ~x, "!": lambda x: not x}


def plain(value: Value) -> Value:
    """A result, wrapped where it is a number."""
    return wrapped(value) if isinstance(value, int) and not isinstance(value, bool) else value


def text_of(value: Value) -> str:
    """A value as replies print it."""
    if value is None:
        return "nil"
    if isinstance(value, bool):
        return "true" if value else "false"
    return "{}" if value == () else str(value)
