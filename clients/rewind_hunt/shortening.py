"""Fewer commands that lead to what was found, by way of steps that do not matter."""
from __future__ import annotations

import time
from collections.abc import Iterator, Sequence
from dataclasses import dataclass
from random import Random
from typing import Optional

from rewind_client.core import step_words
from rewind_client.names import step_owner
from rewind_client.replies import Reason, ran

from .hunting import Found
from .outcomes import Outcome
from .schedules import End
from .scripts import Reducer, Script

# Of schedules that ended alike, so many with the fewest steps get a script, and so many steps of them.
SCRIPTS = 12
SCRIPT_STEPS = 1500
# So many lists of commands are tried for one thing that was found, within so many seconds.
TRIES = 2500
SECONDS = 3.0
# How far away from a round robin.
MOST_AWAY = 10
MOST_PLACES = 400
MOST_GOROUTINES = 20
REASONS = {End.FAULT: Reason.FAULT, End.DEADLOCK: Reason.STUCK, End.ENDED: Reason.ENDED, End.UNENDED: Reason.COUNT}


@dataclass(frozen=True)
class Short:
    """A script, and the commands that a person types to come to the same; the last one is a `run`, or ends the program."""

    script: Script
    commands: tuple[str, ...]


class Shortener:
    """Looks for the fewest commands that lead to one thing that was found."""

    def __init__(self, reducer: Reducer, found: Found, outcomes: Sequence[Outcome]) -> None:
        """The outcomes are those that have it against them."""
        self.reducer = reducer
        self.found = found
        self.fewest = sorted(outcomes, key=lambda outcome: (outcome.steps, outcome.number))
        self.run = f"run {reducer.most_steps}"
        self.left = TRIES
        self.until = time.monotonic() + SECONDS
        self.best: list[str] = []

    def short(self) -> Optional[Short]:
        """The best script of some schedules, with the fewest commands that were found; none where no script is made."""
        scripts = self.scripts()
        script = min(scripts, key=lambda each: (len(each.entries), len(each.commands)), default=None)
        if script is None:
            return None
        for commands in self.candidates(scripts):
            if self.is_left() and (not self.best or len(commands) < len(self.best)) and self.comes_to(script.outcome, commands):
                self.best = self.with_fewer(script.outcome, commands)
        return Short(script, tuple(self.best or self.whole(script)))

    def scripts(self) -> list[Script]:
        """Scripts of the schedules with the fewest steps that printed the same, if that is what was found."""
        first = self.fewest[0]
        alike = [outcome for outcome in self.fewest if self.reducer.hunted.has_come_to(first, self.found, outcome)]
        tried = max(1, min(SCRIPTS, SCRIPT_STEPS // max(1, first.steps)))
        found = (self.reducer.script(outcome, self.found) for outcome in alike[:tried])
        return [script for script in found if script]

    def whole(self, script: Script) -> list[str]:
        """The commands of a script, to its end; those of its schedule where the others of a deadlock then stand elsewhere."""
        if script.outcome.end is not End.DEADLOCK:
            return list(script.commands)
        commands = [*script.commands, self.run]
        if self.comes_to(script.outcome, commands):
            return commands
        return self.reducer.scheduler.take(script.outcome.number).commands()

    # What is tried.

    def candidates(self, scripts: Sequence[Script]) -> Iterator[list[str]]:
        """Beginnings of the scripts and a run to the end; then round robin with one detour, and with two."""
        for script in scripts:
            for count in range(len(script.commands)):
                if self.best and count + 1 >= len(self.best):
                    break
                yield [*script.commands[:count], self.run]
        goroutines = list(dict.fromkeys(step_owner(it.step) for script in scripts for it in script.entries))[:MOST_GOROUTINES]
        steps = min(scripts[0].outcome.steps, MOST_PLACES)
        for count in range(1, MOST_AWAY + 1):
            if self.best and count + 2 > len(self.best):
                return
            for place in range(steps):
                for name in goroutines:
                    yield [*self.before(place), *[step_words(name)] * count, self.run]
        yield from self.two_detours(goroutines, steps)

    def two_detours(self, goroutines: Sequence[str], steps: int) -> Iterator[list[str]]:
        """Round robin in which goroutines take some steps out of their turn at two places, drawn at random."""
        random = Random(steps)
        for _ in range(TRIES):
            first, second = (random.choice(goroutines) for _ in range(2))
            place, between = random.randrange(steps), random.randrange(1, steps + 1)
            counts = [random.randint(1, 3) for _ in range(2)]
            detours = [[step_words(name)] * number for name, number in zip((first, second), counts)]
            yield [*self.before(place), *detours[0], *self.before(between), *detours[1], self.run]

    def before(self, place: int) -> list[str]:
        """The run up to a place."""
        return [f"run {place}"] if place else []

    def with_fewer(self, outcome: Outcome, commands: list[str]) -> list[str]:
        """The commands without parts that are not needed, and with runs for parts that are; the half first and single ones last."""
        size = len(commands) // 2
        while size:
            at = 0
            while at < len(commands) - 1 and self.is_left():
                rest = commands[min(at + size, len(commands) - 1) :]
                instead: list[list[str]] = [[], [f"run {size}"]] if size > 1 else [[]]
                fewer = next((found for part in instead if self.comes_to(outcome, found := [*commands[:at], *part, *rest])), None)
                if fewer:
                    commands = fewer
                else:
                    at += size
            size //= 2
        return commands

    # The trial.

    def is_left(self) -> bool:
        """Whether more may be tried."""
        return self.left > 0 and time.monotonic() < self.until

    def comes_to(self, outcome: Outcome, commands: Sequence[str]) -> bool:
        """Whether commands of which none is refused come to the same end as a schedule."""
        self.left -= 1
        answers = self.reducer.from_start(commands)
        if not all(reply.is_ok for reply in answers):
            return False
        if commands[-1].startswith("run ") and ran(answers[-1]).reason is not REASONS[outcome.end]:
            return False
        return self.reducer.hunted.has_come_to(outcome, self.found, self.reducer.now(outcome.number))
