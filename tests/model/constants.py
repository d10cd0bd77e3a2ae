"""Constant expressions by their exact values."""
from __future__ import annotations

from collections.abc import Callable

from .trees import Expr
from .values import Value


def constant(value: Value, its_type: str) -> Expr:
    return Expr("constant", value, kind=its_type)


def folded(expr: Expr) -> Expr:
    """A constant expression by its exact value, as Go has it."""
    if any(part.form != "constant" or isinstance(part.value, tuple) or part.value is None for part in expr.parts):
        return expr
    values = [part.value for part in expr.parts]
    value = EXACT[expr.form][expr.value](*values)
    return constant(value, "bool" if isinstance(value, bool) else "int")


def quotient(x: int, y: int) -> int:
    return abs(x) // abs(y) * (1 if (x < 0) == (y < 0) else -1)


EXACT: dict[str, dict[str, Callable[..., Value]]] = {
    "unary": {"+": lambda x: x, "-": lambda x: -x, "^": lambda x: ~x, "!": lambda x: not x},
    "binary": {
        "+": lambda x, y: x + y, "-": lambda x, y: x - y, "*": lambda x, y: x * y, "/": quotient,
        "%": lambda x, y: x - quotient(x, y) * y, "&": lambda x, y: x & y, "|": lambda x, y: x | y, "^": lambda x, y: x ^ y,
        "&^": lambda x, y: x & ~y, "<<": lambda x, y: x << y, ">>": lambda x, y: x >> y, "==": lambda x, y: x == y,
        "!=": lambda x, y: x != y, "<": lambda x, y: x < y, "<=": lambda x, y: x <= y, ">": lambda x, y: x > y,
        ">=": lambda x, y: x >= y, "&&": lambda x, y: x and y, "||": lambda x, y: x or y,
    },
}
