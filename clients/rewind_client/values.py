"""The value of a plain expression that a user writes, from the variables of a frame: one that holds no call and no receive."""
from __future__ import annotations

import re
from collections.abc import Callable, Sequence
from typing import Generic, NamedTuple, TypeVar, Union

# A number, a truth value, or a channel by its name.
Value = Union[int, bool, str]
NUMBER = re.compile(r"-?[0-9]+")

PRECEDENCE = {
    **dict.fromkeys(("||",), 1),
    **dict.fromkeys(("&&",), 2),
    **dict.fromkeys(("==", "!=", "<", "<=", ">", ">="), 3),
    **dict.fromkeys(("+", "-", "|", "^"), 4),
    **dict.fromkeys(("*", "/", "%", "<<", ">>", "&", "&^"), 5),
}
BITS = 64
# Operands within operands.
DEEPEST = 100


class NotPlain(Exception):
    """The expression is none whose value is told by its text and some variables; the text says why, behind its subject."""


def quotient(left: int, right: int) -> int:
    if right == 0:
        raise NotPlain("it divides by zero")
    magnitude = abs(left) // abs(right)
    return magnitude if (left < 0) == (right < 0) else -magnitude


def shifted(left: int, count: int) -> int:
    if not -BITS <= count <= BITS:
        raise NotPlain(f"it shifts by {count}")
    return left << count if count >= 0 else left >> -count


LOGICAL: dict[str, Callable[[bool, bool], bool]] = {
    "||": lambda left, right: left or right,
    "&&": lambda left, right: left and right,
}
EQUAL: dict[str, Callable[[Value, Value], bool]] = {
    "==": lambda left, right: left == right,
    "!=": lambda left, right: left != right,
}
COMPARED: dict[str, Callable[[int, int], bool]] = {
    "<": lambda left, right: left < right,
    "<=": lambda left, right: left <= right,
    ">": lambda left, right: left > right,
    ">=": lambda left, right: left >= right,
}
NUMERIC: dict[str, Callable[[int, int], int]] = {
    "+": lambda left, right: left + right,
    "-": lambda left, right: left - right,
    "|": lambda left, right: left | right,
    "^": lambda left, right: left ^ right,
    "*": lambda left, right: left * right,
    "/": quotient,
    "%": lambda left, right: left - quotient(left, right) * right,
    "<<": shifted,
    ">>": lambda left, right: shifted(left, -right),
    "&": lambda left, right: left & right,
    "&^": lambda left, right: left & ~right,
}


class Told(NamedTuple):
    """The value of an expression as Rewind writes it; or an empty text, and why it cannot be told."""

    value: str
    why: str = ""


def unmeasured(_word: str, _channel: str) -> str:
    """Nothing is known of channels."""
    return ""


def told_of(tokens: Sequence[str], variable: Callable[[str], str], measure: Callable[[str, str], str] = unmeasured) -> Told:
    """The value of an expression, or why it cannot be told; `measure` gives the `len` or the `cap` of a channel."""
    if list(tokens) == ["struct", "{", "}", "{", "}"]:
        return Told("{}")
    try:
        found = Evaluation(tokens, variable, measure).whole()
        return Told("", str(found)) if isinstance(found, Failed) else Told(written(found))
    except NotPlain as fault:
        return Told("", str(fault))


def written(value: Value) -> str:
    if isinstance(value, bool):
        return "true" if value else "false"
    return value if isinstance(value, str) else str(wrapped(value))


def wrapped(value: int) -> int:
    """A number as 64 bits hold it."""
    return (value + (1 << 63)) % (1 << 64) - (1 << 63)


Operand = TypeVar("Operand")


class Reading(Generic[Operand]):
    """An expression that is being read; what becomes of its operands is for those who read values, or types."""

    def __init__(self, tokens: Sequence[str]) -> None:
        self.tokens = tokens
        self.at = 0
        self.depth = 0

    def whole(self) -> Operand:
        """All of it."""
        found = self.expression(1)
        if self.at < len(self.tokens):
            hint = ", '==' compares" if self.tokens[self.at] == "=" else ""
            raise NotPlain(f"'{self.tokens[self.at][:40]}' is not expected there{hint}")
        return found

    def take(self) -> str:
        if self.at == len(self.tokens):
            raise NotPlain("something is missing at its end")
        self.at += 1
        return self.tokens[self.at - 1]

    def expect(self, wanted: str) -> None:
        if self.take() != wanted:
            raise NotPlain(f"a '{wanted}' is missing")

    def expression(self, least: int) -> Operand:
        """Operands with operators between them that bind at least so closely."""
        left = self.operand()
        while self.at < len(self.tokens) and PRECEDENCE.get(self.tokens[self.at], 0) >= least:
            operator = self.take()
            left = self.combined(operator, left, self.expression(PRECEDENCE[operator] + 1))
        return left

    def operand(self) -> Operand:
        self.depth += 1
        if self.depth > DEEPEST:
            raise NotPlain("it nests too deep")
        found = self.operand_of(self.take())
        self.depth -= 1
        return found

    def operand_of(self, token: str) -> Operand:
        if token == "(":
            inner = self.expression(1)
            self.expect(")")
            return inner
        if token in ("-", "+", "^", "!"):
            return self.signed(token, self.operand())
        if token in ("len", "cap") and self.tokens[self.at : self.at + 1] == ["("]:
            self.at += 1
            name = self.take()
            self.expect(")")
            return self.measured(token, name)
        if token[0].isdigit():
            return self.number(token)
        if not token.isidentifier():
            raise NotPlain(f"'{token[:40]}' is not expected there")
        return self.named(token)

    def combined(self, operator: str, left: Operand, right: Operand) -> Operand:
        raise NotImplementedError

    def signed(self, operator: str, operand: Operand) -> Operand:
        raise NotImplementedError

    def measured(self, word: str, name: str) -> Operand:
        raise NotImplementedError

    def number(self, token: str) -> Operand:
        raise NotImplementedError

    def named(self, token: str) -> Operand:
        raise NotImplementedError


class Failed(str):
    """In place of a value: why there is none. It counts only where the value does, which `&&` and `||` decide."""


def is_number(value: Value) -> bool:
    return isinstance(value, int) and not isinstance(value, bool)


class Evaluation(Reading[Value]):
    """Reads the value of an expression."""

    def __init__(self, tokens: Sequence[str], variable: Callable[[str], str], measure: Callable[[str, str], str]) -> None:
        super().__init__(tokens)
        self.variable = variable
        self.measure = measure

    def combined(self, operator: str, left: Value, right: Value) -> Value:
        if isinstance(left, Failed) or (operator in LOGICAL and left is (operator == "||")):
            return left
        if isinstance(right, Failed):
            return right
        if operator in EQUAL and type(left) is type(right):
            return EQUAL[operator](left, right)
        if operator in LOGICAL and isinstance(left, bool) and isinstance(right, bool):
            return LOGICAL[operator](left, right)
        if isinstance(left, int) and isinstance(right, int) and is_number(left) and is_number(right):
            if operator in COMPARED:
                return COMPARED[operator](left, right)
            if operator in NUMERIC:
                return self.calculated(operator, left, right)
        raise NotPlain(unfit(operator))

    def calculated(self, operator: str, left: int, right: int) -> Value:
        try:
            return wrapped(NUMERIC[operator](left, right))
        except NotPlain as fault:
            return Failed(fault)

    def signed(self, operator: str, operand: Value) -> Value:
        if isinstance(operand, Failed):
            return operand
        if operator == "!" and isinstance(operand, bool):
            return not operand
        if operator == "!" or not isinstance(operand, int) or not is_number(operand):
            raise NotPlain(unfit(operator))
        return wrapped({"-": -operand, "+": +operand, "^": ~operand}[operator])

    def measured(self, word: str, name: str) -> Value:
        found = self.measure(word, self.variable(name))
        return int(found) if found else Failed(f"{word}({name[:40]}) has no value here")

    def number(self, token: str) -> Value:
        return number_of(token)

    def named(self, token: str) -> Value:
        if token in ("true", "false"):
            return token == "true"
        text = self.variable(token) or ("nil" if token == "nil" else "")
        if not text:
            return Failed(f"'{token[:40]}' has no value here")
        return text == "true" if text in ("true", "false") else int(text) if NUMBER.fullmatch(text) else text


def unfit(operator: str) -> str:
    """Why an operator cannot be applied."""
    if operator in LOGICAL or operator == "!":
        return f"'{operator}' wants truth values"
    return f"'{operator}' wants two of one type" if operator in EQUAL else f"'{operator}' wants numbers"


def number_of(token: str) -> int:
    octal = len(token) > 1 and token[0] == "0" and token.replace("_", "").isdigit()
    try:
        return int(token.replace("_", ""), 8) if octal else int(token, 0)
    except ValueError:
        raise NotPlain(f"'{token[:40]}' is no number") from None
