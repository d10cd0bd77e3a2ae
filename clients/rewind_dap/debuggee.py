"""A program that was launched, with all that is kept of it."""
from __future__ import annotations

from collections.abc import Callable
from typing import Any, Optional

from rewind_client.session import Session
from rewind_client.watched import Watched

from .breakpoints import Breakpoints
from .launching import Launch, described
from .stops import Stop
from .view import View


class Debuggee:
    """A program under the debugger.

    `granted` are steps that workers may still take, as far as is known, and `targets` the steps that `goto` was offered.
    """

    def __init__(
        self, launch: Launch, session: Session, first_line: int, first_column: int, tell: Callable[[dict[str, Any]], None]
    ) -> None:
        """The two numbers are those that the editor gives the first line and the first column; `tell` is told of breakpoints."""
        self.launch = launch
        self.first_line, self.first_column = first_line, first_column
        self.breakpoints = Breakpoints(session, described(launch.path), first_line, tell)
        self.watches: dict[Watched, int] = {}
        self.begin(session, 0)

    def begin(self, session: Session, last_number: int) -> None:
        """Begins with a session in which no step is taken; frames and variables get numbers behind the last one given."""
        self.session = session
        self.view = View(session, described(self.launch.path), (self.first_line, self.first_column), last_number)
        self.focus = "g0"
        self.fault: Optional[Stop] = None
        self.printed: list[str] = []
        self.printed_at = 0
        self.told = 0.0
        self.alive: set[str] = set()
        self.granted = 0
        self.targets: dict[int, str] = {}
        self.has_warned = False

    def begin_anew(self, launch: Launch, session: Session) -> None:
        """Begins once more, with the breakpoints as they are."""
        self.launch = launch
        self.begin(session, self.view.last_number)
        self.breakpoints.begin_anew(session)

    def watched(self) -> list[Watched]:
        return list(self.watches)

    def rest(self) -> None:
        """Takes back what the workers were granted, where that is not all taken."""
        if self.granted and self.session.core.process.ended is None:
            self.session.core.ask("free 0")
            self.session.refresh()
        self.granted = 0

    def look_anew(self) -> None:
        """Asks what the workers have done, where they may have done something."""
        if self.granted:
            self.session.refresh()
