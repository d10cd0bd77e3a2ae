"""Breakpoints as the user wants them, and the lines on which Rewind has one."""
from __future__ import annotations

from typing import NamedTuple

from .errors import RewindError
from .program import Program
from .session import Session


class Breakpoint(NamedTuple):
    """A breakpoint on a line where a statement begins, and the line or function that was asked for."""

    line: int
    wanted: str
    shown: int  # the line of the file

    @property
    def is_moved(self) -> bool:
        return self.wanted.isdigit() and int(self.wanted) != self.shown


class NoPlace(RewindError):
    """A breakpoint can't stand there."""


def place_of(program: Program, wanted: str) -> Breakpoint:
    """Where a breakpoint on a line, or at the first statement of a function, stands."""
    if wanted.isdigit():
        place = program.statement_at(int(wanted))
        if place is None:
            raise NoPlace(f"no statement begins on line {wanted} or after it: the source has {len(program.shown_lines)} lines")
        return Breakpoint(place, wanted, program.shown(place))
    function = program.functions.get(wanted)
    if function is None:
        raise NoPlace(f"there is no function {wanted}: the functions are {', '.join(sorted(program.functions))}")
    inside = program.statements_between(function.line, function.last_line)
    after = [line for line in inside if line > function.line]
    line = (after or inside)[0]
    return Breakpoint(line, wanted, program.shown(line))


class Breakpoints:
    """The breakpoints of a session."""

    def __init__(self, session: Session) -> None:
        self.session = session
        self.by_line: dict[int, Breakpoint] = {}

    def lines(self) -> set[int]:
        return set(self.by_line)

    def all(self) -> list[Breakpoint]:
        return [self.by_line[line] for line in sorted(self.by_line)]

    def note(self, line: int) -> None:
        """Takes account of a breakpoint that a command has set."""
        self.by_line[line] = Breakpoint(line, str(line), self.session.program.shown(line))

    def set(self, wanted: str) -> Breakpoint:
        """Sets a breakpoint on a line or at a function."""
        found = place_of(self.session.program, wanted)
        self.session.core.set_breakpoint(found.line)
        self.by_line[found.line] = found
        return found

    def clear(self, wanted: int) -> bool:
        """Removes a breakpoint from a line of the file; whether there was one."""
        line = next((line for line, one in self.by_line.items() if one.shown == wanted), wanted)
        self.session.core.clear_breakpoint(line)
        return self.by_line.pop(line, None) is not None
