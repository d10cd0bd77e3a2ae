"""What a word of the shell writes into the console of an editor."""
from __future__ import annotations

import io
from typing import Optional

from rewind_client.finding import explained
from rewind_client.program import Program
from rewind_client.searching import Blamed, Searched, blame_from, search_from
from rewind_client.session import Session
from rewind_client.stories import Stories
from rewind_shell.desk import Stops
from rewind_shell.terminal import Screen

from .debuggee import Debuggee


class Answer:
    """What a word writes: the desk at which the shell's words are obeyed, with one goroutine chosen."""

    def __init__(self, debuggee: Debuggee, chosen: str) -> None:
        self.debuggee = debuggee
        self.chosen = chosen
        self.out = io.StringIO()
        self.screen = Screen(self.out, lambda: False)
        self.interrupts = self

    def pending(self) -> bool:
        return False

    @property
    def takes_values(self) -> bool:
        return True

    @property
    def has_workers(self) -> bool:
        return self.debuggee.launch.workers > 0

    @property
    def session(self) -> Session:
        return self.debuggee.session

    @property
    def program(self) -> Program:
        return self.debuggee.session.program

    @property
    def breakpoints(self) -> Stops:
        return self.debuggee.breakpoints

    def explained(self, code: str) -> list[str]:
        return explained(self.debuggee.launch.rewind, code)

    def searched(self, states: int) -> Searched:
        return search_from(self.debuggee.launch.rewind, self.session, states)

    def blamed(self, states: int, seconds: Optional[float] = None) -> Blamed:
        return blame_from(self.debuggee.launch.rewind, self.session, states, seconds)

    def tell_chosen(self) -> None:
        found = self.session.goroutine(self.chosen)
        if found is not None:
            self.screen.say(f"{self.chosen} is {Stories(self.session).goroutine(found)}")

    def text(self) -> str:
        return self.out.getvalue().rstrip("\n")
