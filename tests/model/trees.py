"""The trees of an accepted source. Each variable has a number in its function, in the order of declaration."""
from __future__ import annotations

from dataclasses import dataclass, field
from typing import Any, Optional


@dataclass(eq=False)
class Expr:
    """An expression: its form, a name, number or operator, its parts, and its type.

    A receive has the zero value of its channel's items.
    """

    form: str
    value: Any = None
    parts: list[Expr] = field(default_factory=list)
    kind: str = ""
    zero: Any = None


@dataclass(eq=False)
class Stmt:
    """A statement: its form, the line at which it begins, and what the form has."""

    form: str
    line: int
    names: list[Optional[int]] = field(default_factory=list)
    exprs: list[Expr] = field(default_factory=list)
    body: list[Stmt] = field(default_factory=list)
    other: list[Stmt] = field(default_factory=list)
    init: Optional[Stmt] = None
    post: Optional[Stmt] = None
    label: Optional[str] = None
    value: Any = None


@dataclass(eq=False)
class Function:
    """A function: the names of its variables, the first of which are its parameters, with the types of all."""

    name: str
    variables: list[str]
    count: int
    body: list[Stmt]
    end: int
