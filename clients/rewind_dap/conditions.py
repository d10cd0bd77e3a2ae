"""When a breakpoint stops: always, where an expression holds, or from some hit on; or never, where it only writes a message."""
from __future__ import annotations

import re
from collections.abc import Callable
from typing import Optional, Union

from rewind_client.expressions import evaluated, fault_of_condition
from rewind_client.program import Program
from rewind_client.replies import Frame, Goroutine
from rewind_client.session import Session
from rewind_client.values import Told

from .arguments import Arguments

HITS = re.compile(r"\s*(>=|==|>|%)?\s*([1-9][0-9]{0,9})\s*\Z")
FIELD = re.compile(r"\{([^{}]*)\}")
SHOWN = 80


class Condition:
    """What a breakpoint wants beside its line; `hits` counts how often its expression held there.

    `fault` says why the expression had no truth value when it was last wanted, and `is_told` that the user has been told so.
    """

    def __init__(self, expression: str, compared: str, count: int, message: str) -> None:
        self.expression = expression
        self.compared = compared
        self.count = count
        self.message = message
        self.hits = 0
        self.fault = ""
        self.is_told = False

    def holds(self, session: Session, goroutine: Optional[Goroutine]) -> bool:
        """Whether the breakpoint is hit, where a goroutine comes to it. An expression without a truth value holds."""
        if self.expression:
            found = in_frame(self.expression, session, innermost(goroutine))
            if found.value == "false":
                return False
            if found.value != "true":
                self.fault = found.why or f"it is {found.value}, and no truth value"
        self.hits += 1
        compares = {
            ">": self.hits > self.count,
            "==": self.hits == self.count,
            "%": self.hits % self.count == 0,
            ">=": self.hits >= self.count,
        }
        return compares[self.compared]

    def written(self, session: Session, goroutine: Optional[Goroutine]) -> str:
        """The message, with values in place of what stands between braces."""
        frame = innermost(goroutine)
        return FIELD.sub(lambda field: in_frame(field[1], session, frame).value or field[0], self.message)

    def news(self, line: int) -> str:
        """Why the expression has no truth value, once; else an empty text."""
        if not self.fault or self.is_told:
            return ""
        self.is_told = True
        place = f"'{self.expression[:SHOWN]}' on line {line}"
        return f"The condition {place} has no truth value: {self.fault}. The breakpoint stops wherever that is so."


def condition_of(program: Program, line: int, wanted: Arguments) -> Union[Condition, str]:
    """The condition of a breakpoint on a line; a sentence where there can be none."""
    expression, hits = wanted.text("condition", "").strip(), wanted.text("hitCondition", "")
    found = HITS.match(hits or ">= 1")
    if found is None:
        return "A hit condition is a number, or one behind '>=', '>', '==' or '%'"
    why = fault_of_condition(expression, program, program.function_at(line)) if expression else ""
    if why:
        return f"'{expression[:SHOWN]}' is no condition: {why}"
    return Condition(expression, found[1] or ">=", int(found[2]), wanted.text("logMessage", ""))


def innermost(goroutine: Optional[Goroutine]) -> Optional[Frame]:
    return goroutine.frames[0] if goroutine and goroutine.frames else None


def in_frame(expression: str, session: Session, frame: Optional[Frame]) -> Told:
    """The value of an expression in a frame, or why it cannot be told."""
    variable: Callable[[str], str] = frame.value_of if frame else lambda name: ""
    return evaluated(expression, session, variable)
