"""The words that search all schedules from where the session stands."""
from __future__ import annotations

from collections.abc import Callable
from typing import Optional

from rewind_client.searching import STATES, ahead, repeated

from .desk import Desk
from .looking import tell_step
from .words import HINTS

SHOWN_COMMANDS = 30
MOST_STATES = 1_000_000_000


class Searching:
    """Answers that are certain, since they are those of a search of all schedules."""

    def __init__(self, shell: Desk) -> None:
        self.shell = shell
        self.screen = shell.screen

    def handlers(self) -> dict[str, Callable[[list[str]], None]]:
        return {"search": self.search, "blame": self.blame}

    def states(self, name: str, words: list[str]) -> Optional[int]:
        """How many states are searched at most; none where the word is no such number, with a sentence."""
        wanted = words[0] if words else str(STATES)
        if wanted.isascii() and wanted.isdecimal() and 0 < int(wanted) <= MOST_STATES:
            return int(wanted)
        self.screen.say(HINTS[name], "error")
        return None

    def search(self, words: list[str]) -> None:
        """Searches all schedules from here, and tells the first commands to a bad end."""
        states = self.states("search", words)
        if states is None:
            return
        found = self.shell.searched(states)
        self.screen.say(found.sentence)
        if not found.commands:
            return
        commands = repeated(ahead(self.shell.session))
        if commands:
            shown = "; ".join(commands[:SHOWN_COMMANDS]) + ("; .." if len(commands) > SHOWN_COMMANDS else "")
            self.screen.say(f"    {shown}")
        self.screen.say("'follow' takes these steps" if commands else "the program stands there")

    def blame(self, words: list[str]) -> None:
        """The step after which no schedule ends well any more."""
        states = self.states("blame", words)
        if states is None:
            return
        found = self.shell.blamed(states)
        self.screen.say(found.sentence)
        if found.step:
            tell_step(self.shell, found.step)
