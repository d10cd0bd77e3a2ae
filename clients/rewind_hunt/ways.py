"""Where to go back: a step from before which the program ends without what was found."""
from __future__ import annotations

import time
from collections.abc import Iterator, Sequence
from dataclasses import dataclass
from typing import Optional

from rewind_client.core import step_words
from rewind_client.names import step_owner
from rewind_client.replies import Entry, KindWord, Reason, ran, steps

from .hunting import Found
from .outcomes import Outcome
from .schedules import End
from .scripts import Reducer

SECONDS = 2.0
PLAIN = frozenset((KindWord.PURE, KindWord.CALL, KindWord.RETURN, KindWord.MAKE, KindWord.EXIT, KindWord.FAULT))


@dataclass(frozen=True)
class WayBack:
    """The step that is taken back, how many go with it, the commands from there, and how the program ends then."""

    step: str
    taken_back: int
    commands: tuple[str, ...]
    outcome: Outcome


@dataclass(frozen=True)
class Search:
    """A way back, if one was found; else how many of the steps were tried, before the time was over or to the last one."""

    way: Optional[WayBack]
    tried: int
    steps: int


class Ways:
    """Looks for a way back behind the commands that a person types, and tries each there."""

    def __init__(self, reducer: Reducer, commands: Sequence[str], found: Found) -> None:
        self.reducer = reducer
        self.commands = list(commands)
        self.found = found

    def search(self) -> Search:
        """The latest step from before which the program ends well; else the latest one from before which this does not come again."""
        until = time.monotonic() + SECONDS
        self.reducer.from_start(self.commands)
        entries = self.reducer.scheduler.core.log()
        targets = [it for it in reversed(entries) if it.kind.word not in PLAIN]
        second: Optional[WayBack] = None
        for tried, entry in enumerate(targets):
            for first in self.firsts(entries, entry):
                if time.monotonic() > until:
                    return Search(second, tried, len(targets))
                way = self.tried(entry.step, first)
                if way and self.reducer.hunted.is_well(way.outcome):
                    return Search(way, tried, len(targets))
                second = second or way
        return Search(second, len(targets), len(targets))

    def firsts(self, entries: Sequence[Entry], entry: Entry) -> Iterator[list[str]]:
        """What is done after the step is taken back, before the run: nothing, or a step of another goroutine."""
        yield []
        own = step_owner(entry.step)
        for name in dict.fromkeys(step_owner(it.step) for it in entries):
            if name != own:
                yield [step_words(name)]

    def tried(self, step: str, first: Sequence[str]) -> Optional[WayBack]:
        """Takes the step back and goes on from there; none where the program does not end then, or the same comes again."""
        commands = [*first, f"run {self.reducer.most_steps}"]
        answers = self.reducer.from_start([*self.commands, "back " + step, *commands])
        behind = answers[len(self.commands) :]
        if not all(reply.is_ok for reply in behind) or ran(behind[-1]).reason is not Reason.ENDED:
            return None
        outcome = self.reducer.now()
        if outcome.end is not End.ENDED or self.found in self.reducer.hunted.against(outcome):
            return None
        return WayBack(step, len(steps(behind[0])), tuple(commands), outcome)
