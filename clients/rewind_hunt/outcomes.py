"""How a schedule ended, and what there is to say against it."""
from __future__ import annotations

from collections import Counter
from collections.abc import Iterable, Sequence
from dataclasses import dataclass
from enum import Enum
from typing import NamedTuple

from rewind_client import replies
from rewind_client.core import step_words
from rewind_client.endings import DRAIN, drained
from rewind_client.replies import Goroutine, State

from .schedules import End, Schedule, Scheduler


class Kind(Enum):
    """What there is against a schedule, the worst first."""

    PANIC = "panic"
    DEADLOCK = "deadlock"
    UNENDED = "unended"
    LEAK = "leak"
    OUTPUT = "output"


class Spot(NamedTuple):
    """Where a goroutine stands: the function and line of its frames, the innermost first; only the innermost has a line."""

    functions: tuple[str, ...]
    line: int
    state: State


@dataclass(frozen=True)
class Outcome:
    """How the schedule of a number ended: the fault, where goroutines stand, and what was printed.

    The spots are those of a panic or a deadlock; where the program ended, those of the goroutines that are blocked for ever.
    """

    number: int
    end: End
    steps: int
    fault: str = ""
    spots: tuple[Spot, ...] = ()
    console: tuple[str, ...] = ()

    @property
    def left(self) -> "Counter[Spot]":
        """How many goroutines are left at each spot when `main` has returned."""
        return Counter(self.spots if self.end is End.ENDED else ())

    @property
    def places(self) -> tuple[Spot, ...]:
        """The spots, each once."""
        return tuple(dict.fromkeys(self.spots))


class Judge:
    """Finds the outcome of a schedule, with the process that has just taken it."""

    def __init__(self, scheduler: Scheduler) -> None:
        self.scheduler = scheduler

    def outcome(self, number: int, schedule: Schedule) -> Outcome:
        """The outcome; where goroutines are left, their last steps come into the schedule before the exit."""
        console = tuple(self.scheduler.core.console())
        if schedule.end is End.ENDED:
            left = self.drained(schedule)
            if schedule.end is End.ENDED:
                return Outcome(number, End.ENDED, len(schedule.entries), spots=spots(map(stopped_at_last, left)), console=console)
        shown = self.shown(schedule.goroutines)
        fault = ""
        if schedule.end is End.FAULT:
            fault = schedule.entries[-1].kind.fault
            owner = schedule.entries[-1].step.partition("#")[0]
            shown = [one for one in shown if one.name == owner]
        elif schedule.end is End.DEADLOCK:
            shown = [one for one in shown if one.state is State.WAITING]
        else:
            shown = []
        return Outcome(number, schedule.end, len(schedule.entries), fault, spots(shown), console)

    def shown(self, names: Sequence[str]) -> list[Goroutine]:
        found = self.scheduler.core.process.ask_all(["show " + name for name in names])
        return [replies.goroutine(reply) for reply in found if reply.is_ok]

    def drained(self, schedule: Schedule) -> list[Goroutine]:
        """The goroutines that would be blocked for ever, or would go on for ever, if `main` waited for them.

        The exit is taken back, the others go as far as they can, and the exit is taken again.
        """
        others = [one.name for one in self.shown(schedule.goroutines) if one.state is not State.DONE and one.name != "g0"]
        if not others:
            return []
        last = schedule.entries.pop()
        self.scheduler.ask(["undo"])
        schedule.end = End.UNENDED
        taken = self.drain(schedule)
        if schedule.stopped:
            return []
        left = [one for one in self.shown(schedule.goroutines) if one.name != "g0" and one.state is not State.DONE]
        if taken < DRAIN:
            left = [one for one in left if one.state is State.WAITING]
        self.scheduler.try_steps([step_words("g0")])
        assert schedule.entries[-1] == last, "the exit stays what it was"
        return left

    def drain(self, schedule: Schedule) -> int:
        """Lets the goroutines beside `main` go on until none is ready, or for many steps: how many they took."""
        return drained(lambda: [name for name in schedule.live if name != "g0"], self.scheduler.try_steps)


def stopped_at_last(one: Goroutine) -> Goroutine:
    """A goroutine that is left; one that goes on for ever is told by its function alone, since its line is one of many."""
    return one if one.state is State.WAITING else one._replace(line=0, frames=one.frames[-1:])


def spots(goroutines: Iterable[Goroutine]) -> tuple[Spot, ...]:
    """Where goroutines stand, in an order that does not hang on their names."""
    found = [Spot(tuple(frame.function for frame in one.frames), one.line, one.state) for one in goroutines]
    return tuple(sorted(found, key=lambda spot: (spot.line, spot.functions, spot.state.value)))
