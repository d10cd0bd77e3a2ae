"""What the words that only look want of whoever obeys them: the shell, or the console of an editor."""
from __future__ import annotations

from typing import AbstractSet, Optional, Protocol

from rewind_client.program import Program
from rewind_client.searching import Blamed, Searched
from rewind_client.session import Session

from .terminal import Screen


class Stops(Protocol):
    """Breakpoints, as far as they are looked at."""

    def lines(self) -> AbstractSet[int]:
        ...


class Pending(Protocol):
    """Whether the user wants a long answer to end."""

    def pending(self) -> bool:
        ...


class Desk(Protocol):
    """A session with the goroutine that is chosen in it, and where answers are written."""

    chosen: str

    @property
    def takes_values(self) -> bool:
        """Whether a line may be a variable or an expression."""

    @property
    def has_workers(self) -> bool:
        """Whether the program runs beside workers."""

    @property
    def session(self) -> Session:
        ...

    @property
    def program(self) -> Program:
        ...

    @property
    def screen(self) -> Screen:
        ...

    @property
    def breakpoints(self) -> Stops:
        ...

    @property
    def interrupts(self) -> Pending:
        ...

    def explained(self, code: str) -> list[str]:
        """What Rewind tells of a code; nothing where it is none."""

    def searched(self, states: int) -> Searched:
        """What comes of a search of all schedules from here."""

    def blamed(self, states: int, seconds: Optional[float] = None) -> Blamed:
        """Which step of the log is to blame for where the session stands; no step where that takes more `seconds`."""

    def tell_chosen(self) -> None:
        """Says where the chosen goroutine stands."""
