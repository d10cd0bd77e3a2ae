"""Types and values in a source that was refused, as far as an explanation needs them.

A type is its text in Go, such as `chan int`, or '' where it is not known."""
from __future__ import annotations

from dataclasses import dataclass
from typing import Optional, Union

TYPES = frozenset(["int", "bool"])
PREDECLARED = frozenset("int bool true false nil len cap make close println".split())
LEAST, GREATEST = -(2**63), 2**63 - 1
PREFIXES = {"chan ": "both", "<-chan ": "receive", "chan<- ": "send"}
COMPARISONS = frozenset(["==", "!="])
ORDERINGS = frozenset(["<", "<=", ">", ">="])
LOGICAL = frozenset(["&&", "||"])
SHIFTS = frozenset(["<<", ">>"])
PRECEDENCES = {
    **dict.fromkeys(["||"], 1),
    **dict.fromkeys(["&&"], 2),
    **dict.fromkeys(["==", "!=", "<", "<=", ">", ">="], 3),
    **dict.fromkeys(["+", "-", "|", "^"], 4),
    **dict.fromkeys(["*", "/", "%", "<<", ">>", "&", "&^"], 5),
}
Constant = Union[int, bool]


@dataclass(frozen=True)
class Value:
    """What an expression gives: kind is value, constant, nil, text, nothing (a call without a result) or unknown."""

    kind: str
    own: str  # its type
    first: int  # the number of its first token
    last: int
    constant: Optional[Constant] = None

    def may_be(self, wanted: str) -> bool:
        """Whether it fits where a type is wanted; true where too little is known."""
        if self.kind == "nil":
            return not wanted or is_channel(wanted)
        return self.kind == "unknown" or not self.own or not wanted or is_assignable(self.own, wanted)


def is_channel(own: str) -> bool:
    """Whether a type is one of channels."""
    return any(own.startswith(prefix) for prefix in PREFIXES)


def direction_of(own: str) -> str:
    """The direction of a type of channels: both, receive or send."""
    return next((way for prefix, way in PREFIXES.items() if own.startswith(prefix)), "")


def element_of(own: str) -> str:
    """The type of what a channel carries."""
    inner = next((own[len(prefix) :] for prefix in PREFIXES if own.startswith(prefix)), "")
    return inner[1:-1] if inner.startswith("(") else inner


def channel_of(prefix: str, element: str) -> str:
    """The type of channels with this prefix and element."""
    return f"{prefix} ({element})" if element.startswith("<-") else f"{prefix} {element}" if element else ""


def is_assignable(own: str, wanted: str) -> bool:
    """Whether a value of one type may stand where another is wanted."""
    if own == wanted:
        return True
    return direction_of(own) == "both" and is_channel(wanted) and element_of(own) == element_of(wanted)


def fits(constant: Optional[Constant]) -> bool:
    """Whether a constant fits `int`."""
    return constant is None or isinstance(constant, bool) or LEAST <= constant <= GREATEST


def number_of(text: str) -> int:
    """The number that a literal means."""
    digits = text.replace("_", "").lower()
    if len(digits) > 1 and digits[0] == "0" and digits.isdigit():
        return int(digits, 8) if not set(digits) & set("89") else 0
    try:
        return int(digits, 0)
    except ValueError:
        return 0


def of_numbers(operator: str, left: int, right: int) -> Optional[Constant]:
    """The constant that an operator makes of two numbers, or none where it makes none."""
    if operator in ("/", "%"):
        if right == 0:
            return None
        quotient = abs(left) // abs(right) * (1 if (left < 0) == (right < 0) else -1)
        return quotient if operator == "/" else left - quotient * right
    if operator in SHIFTS:
        if right < 0:
            return None
        return left >> min(right, 200) if operator == ">>" else left << min(right, 200)
    simple = {
        "+": left + right, "-": left - right, "*": left * right, "&": left & right, "|": left | right,
        "^": left ^ right, "&^": left & ~right, "==": left == right, "!=": left != right,
        "<": left < right, "<=": left <= right, ">": left > right, ">=": left >= right,
    }  # fmt: skip
    return simple.get(operator)


def joined(operator: str, left: Optional[Constant], right: Optional[Constant]) -> Optional[Constant]:
    """The constant that an operator makes of two, or none where it makes none."""
    if left is None or right is None:
        return None
    if isinstance(left, bool) and isinstance(right, bool):
        made = {"&&": left and right, "||": left or right, "==": left == right, "!=": left != right}
        return made.get(operator)
    if isinstance(left, bool) or isinstance(right, bool):
        return None
    return of_numbers(operator, left, right)


def result_of(operator: str) -> str:
    """The type of what an operator between two values gives."""
    return "bool" if operator in COMPARISONS | ORDERINGS | LOGICAL else "int"


def wanted_by(operator: str) -> str:
    """The type that both sides of an operator must have; '' where any type will do."""
    if operator in COMPARISONS:
        return ""
    return "bool" if operator in LOGICAL else "int"
