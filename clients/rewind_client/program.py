"""A source that `rewind` has accepted: its lines, where statements begin, and what its functions do.

The command protocol tells the line of a goroutine's next step, and so of its innermost frame alone. Where a breakpoint can
stand, and where an outer frame called the next one, is told from the text.
"""
from __future__ import annotations

import re
from bisect import bisect_left
from collections.abc import Iterable, Sequence
from typing import Optional

from .errors import RewindError
from .flows import Use
from .tokens import all_tokens
from .walk import Clause, Function, Walk

WIDEST = 12
# Only in a text with a type of channels of channels, or a function that returns one, may a receive or a call give a channel.
CARRIES = re.compile(r"chan (<- )?(\( )*(<- )?chan|\) (\( )*(<- )?chan\b")


class Program:
    """The text of a source, and what a walk over it found."""

    def __init__(self, text: bytes, path: str = "") -> None:
        found = all_tokens(text)
        walk = Walk(found)
        self.path = path
        self.bytes = text
        # What the file has; another text where the program was carried over from it.
        self.written = text
        self.text = text.decode("utf-8", "replace")
        self.lines: list[str] = self.text.split("\n")
        self.functions: dict[str, Function] = walk.functions
        self.statements: list[int] = sorted(walk.lines)
        self.widths: dict[int, int] = walk.widths
        self.selects: dict[int, list[Clause]] = walk.selects
        self.carries = CARRIES.search(" ".join(token.text for token in found)) is not None

    def line(self, number: int) -> str:
        """The text of a line with single spaces in it; an empty text where there is no such line."""
        return " ".join(self.lines[number - 1].split()) if 0 < number <= len(self.lines) else ""

    @property
    def shown_lines(self) -> list[str]:
        """The lines of the file."""
        return self.lines

    def shown(self, line: int) -> int:
        """The line of the file from which a line of the program comes, or 0."""
        return line

    def kind_of(self, function: str, name: str) -> str:
        """What the number in a variable stands for, or those in its channel: `text`, `error`, or an empty text for itself."""
        return ""

    def kind_moved(self, lines: Iterable[int]) -> str:
        """What a value stands for that goes over a channel on a line; the lines that called it follow."""
        return ""

    def value(self, kind: str, value: str) -> str:
        """A value of a kind as it is shown."""
        return value

    def where(self, line: int) -> str:
        """Where a line stands, in words."""
        return f"line {line}"

    def at(self, line: int) -> str:
        """A line in words, with its text."""
        return f"{self.where(line)}: {self.line(line)}"

    def outside(self, functions: Sequence[str], line: int) -> tuple[Sequence[str], int]:
        """The frames of a goroutine and its line, without the innermost ones that do not come from the file."""
        return functions, line

    def statement_at(self, line: int) -> Optional[int]:
        """The line, or the next one, on which a statement begins; none where no statement comes after it."""
        place = bisect_left(self.statements, line)
        return self.statements[place] if place < len(self.statements) else None

    def statements_between(self, first: int, last: int) -> list[int]:
        return [line for line in self.statements if first <= line <= last]

    def calling_lines(self, caller: str, callee: str) -> list[int]:
        """The lines of the statements of one function that call another one, in their order."""
        calls = self.functions[caller].calls if caller in self.functions else []
        return sorted({call.line for call in calls if call.function == callee and not call.starts})

    def heading(self, function: str) -> int:
        """The line of a function's heading, or 0 where there is none of that name."""
        return self.functions[function].line if function in self.functions else 0

    def function_at(self, line: int) -> str:
        """The name of the function to which a line belongs, or an empty text."""
        return next((it.name for it in self.functions.values() if it.line <= line <= it.last_line), "")

    def has_variable(self, function: str, name: str) -> bool:
        """Whether a function may have a variable of this name: it is written there."""
        return function in self.functions and name in self.functions[function].names

    def printed_width(self) -> int:
        """An upper bound of the bytes that one step prints; 0 where the program prints nothing.

        A name of one letter may stand for 20 digits.
        """
        printing = [call.width for it in self.functions.values() for call in it.calls if call.function == "println"]
        return WIDEST * max(printing, default=0)

    def uses(self, function: str, line: int) -> list[Use]:
        """What a statement of a function does with channels, but for their lengths."""
        found = self.functions[function].flows.uses if function in self.functions else []
        return [it for it in found if it.line == line]


def read_program(path: str) -> Program:
    """The program in a file."""
    try:
        with open(path, "rb") as file:
            return Program(file.read(), path)
    except (OSError, ValueError) as fault:
        reason = getattr(fault, "strerror", None) or str(fault)
        raise RewindError(f"{path} cannot be read: {reason}") from None
