"""Breakpoints of an editor, and the lines on which Rewind has one."""
from __future__ import annotations

import os
from collections.abc import Callable
from typing import NamedTuple

from rewind_client.breakpoints import NoPlace, place_of
from rewind_client.session import Session

from .arguments import Arguments
from .conditions import Condition, condition_of
from .handlers import Body


class Wish(NamedTuple):
    """A breakpoint that the editor wants: its number, the line or the function that was asked for, and when it stops."""

    number: int
    line: int
    condition: Condition
    function: str = ""


class Breakpoints:
    """The breakpoints that the editor set, each moved to a line on which a statement begins; and those set by commands.

    `tell` is given what an event says of a breakpoint that a command has changed.
    """

    def __init__(self, session: Session, described: Body, first_line: int, tell: Callable[[Body], None]) -> None:
        """`first_line` is the number that the editor gives the first line."""
        self.session = session
        self.described = described
        self.first_line = first_line
        self.tell = tell
        self.last_number = 0
        self.wishes: dict[int, list[Wish]] = {}
        self.functions: dict[int, list[Wish]] = {}
        self.by_command: dict[int, int] = {}

    def lines(self) -> set[int]:
        return set(self.wishes) | set(self.functions) | set(self.by_command)

    def on(self, line: int) -> list[Wish]:
        """What the editor wants on a line."""
        return self.wishes.get(line, []) + self.functions.get(line, [])

    def conditions(self, line: int) -> list[Condition]:
        """When the breakpoints on a line stop; none where only a command has set one."""
        return [wish.condition for wish in self.on(line)]

    def is_here(self, path: str) -> bool:
        """Whether a path is that of the program."""
        return os.path.realpath(path) == os.path.realpath(str(self.described["path"]))

    def numbers(self, line: int) -> list[int]:
        """The numbers of the breakpoints on a line."""
        return [wish.number for wish in self.on(line)] or [self.by_command[line]]

    def replace(self, path: str, wanted: list[Arguments]) -> list[Body]:
        """Sets the breakpoints of a source in place of those before.

        One of a command that the editor has come to name is the editor's from then on.
        """
        asked = [one.number("line", least=0, most=2**31) - self.first_line + 1 for one in wanted]
        if not self.is_here(path):
            return [self.refused(line, f"Only {self.described['path']} is debugged") for line in asked]
        before = self.lines()
        self.wishes = {}
        bodies = [self.one(line, wish) for line, wish in zip(asked, wanted)]
        self.bring_up_to_date(before)
        return bodies

    def replace_functions(self, wanted: list[Arguments]) -> list[Body]:
        """Sets the breakpoints at the first statements of functions in place of those before."""
        before = self.lines()
        self.functions = {}
        bodies = [self.of_function(wish.text("name"), wish) for wish in wanted]
        self.bring_up_to_date(before)
        return bodies

    def bring_up_to_date(self, before: set[int]) -> None:
        """Tells Rewind which lines have come and gone."""
        for line in [*self.wishes, *self.functions]:
            self.by_command.pop(line, None)
        for line in sorted(before - self.lines()):
            self.session.core.clear_breakpoint(line)
        for line in sorted(self.lines() - before):
            self.session.core.set_breakpoint(line)

    def of_function(self, name: str, wanted: Arguments) -> Body:
        """A breakpoint at the first statement of a function."""
        try:
            place = place_of(self.session.program, name).line
        except NoPlace as fault:
            return self.not_set(str(fault))
        if name.isdigit():
            return self.not_set(f"there is no function {name}")
        condition = condition_of(self.session.program, place, wanted)
        if isinstance(condition, str):
            return self.not_set(condition)
        wish = Wish(self.next_number(), place, condition, name)
        self.functions.setdefault(place, []).append(wish)
        return {**self.placed(wish.number, place, place), "source": self.described}

    def not_set(self, why: str) -> Body:
        return {"id": self.next_number(), "verified": False, "message": why}

    def one(self, line: int, wanted: Arguments) -> Body:
        place = self.session.program.statement_at(line)
        if place is None:
            return self.refused(line, "No statement begins on this line or after it")
        condition = condition_of(self.session.program, place, wanted)
        if isinstance(condition, str):
            return self.refused(line, condition)
        wish = Wish(self.next_number(), line, condition)
        self.wishes.setdefault(place, []).append(wish)
        return self.placed(wish.number, line, place)

    def placed(self, number: int, line: int, place: int) -> Body:
        shown = self.session.program.shown(place)
        body: Body = {"id": number, "verified": True, "line": shown + self.first_line - 1}
        return body if line in (place, shown) else {**body, "message": "Moved to the next line on which a statement begins"}

    def refused(self, line: int, why: str) -> Body:
        return {"id": self.next_number(), "verified": False, "line": line + self.first_line - 1, "message": why}

    def next_number(self) -> int:
        self.last_number += 1
        return self.last_number

    # By commands.

    def note_command(self, words: list[str]) -> None:
        """Takes account of a breakpoint that a command of the user has set or removed, and tells the editor."""
        line = int(words[1])
        if words[0] == "break" and line not in self.lines():
            self.by_command[line] = number = self.next_number()
            body = {"id": number, "verified": True, "line": line + self.first_line - 1, "source": self.described}
            self.tell({"reason": "new", "breakpoint": body})
        elif words[0] == "clear" and line in self.lines():
            for number in self.numbers(line):
                self.tell({"reason": "removed", "breakpoint": {"id": number, "verified": False}})
            self.wishes.pop(line, None)
            self.functions.pop(line, None)
            self.by_command.pop(line, None)

    def begin_anew(self, session: Session) -> None:
        """Sets them in a session that begins anew, each where its statement begins in the text as it is then."""
        wishes = [wish for line in sorted(self.wishes) for wish in self.wishes[line]]
        self.session, self.wishes = session, {}
        for wish in wishes:
            place = session.program.statement_at(wish.line)
            if place is None:
                self.tell({"reason": "changed", "breakpoint": {"id": wish.number, "verified": False}})
                continue
            self.wishes.setdefault(place, []).append(wish)
            self.tell({"reason": "changed", "breakpoint": self.placed(wish.number, wish.line, place)})
        self.find_functions_anew()
        for line in sorted(self.lines()):
            session.core.set_breakpoint(line)

    def find_functions_anew(self) -> None:
        """Sets the breakpoints at functions where these begin in the text as it is now."""
        wishes = [wish for line in sorted(self.functions) for wish in self.functions[line]]
        self.functions = {}
        for wish in wishes:
            try:
                place = place_of(self.session.program, wish.function).line
            except NoPlace:
                self.tell({"reason": "changed", "breakpoint": {"id": wish.number, "verified": False}})
                continue
            self.functions.setdefault(place, []).append(wish._replace(line=place))
            self.tell({"reason": "changed", "breakpoint": self.placed(wish.number, place, place)})

    def between(self, path: str, first: int, last: int) -> list[Body]:
        """The places on some lines where a breakpoint can stand."""
        if not self.is_here(path):
            return []
        shift = self.first_line - 1
        return [{"line": line + shift} for line in self.session.program.statements_between(first - shift, last - shift)]
