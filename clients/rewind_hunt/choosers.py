"""Schedulers: each chooses who goes next among the goroutines that are ready. A user may write one of their own in a file.

A schedule has a chooser of its own, which is asked before each step.
"""
from __future__ import annotations

import importlib.util
import inspect
from collections import deque
from collections.abc import Callable, Sequence
from random import Random
from typing import NamedTuple

from rewind_client.errors import RewindError
from rewind_client.names import name_order


class Ready(NamedTuple):
    """A goroutine that can take a step: its name, the line of the step, and the cases of its select that can proceed, from 1.

    It has no cases where it stands at no select, or none of them can proceed and there is a default.
    """

    goroutine: str
    line: int
    cases: tuple[int, ...] = ()


class Choice(NamedTuple):
    """The goroutine that goes next, and the case of its select, or 0 for the first that can proceed."""

    goroutine: str
    case: int = 0


class Chooser:
    """What each scheduler is. It is given chance, so that a seed decides a schedule, and how many steps a round robin takes."""

    # Without chance all its schedules are the same, and one is taken.
    takes_chance = True

    def __init__(self, random: Random, steps: int) -> None:
        self.random = random
        self.steps = steps

    def choose(self, ready: Sequence[Ready]) -> Choice:
        """One of the goroutines that are ready: at least one, in the order in which they became ready."""
        raise NotImplementedError

    def any_case(self, one: Ready) -> Choice:
        """A goroutine, with a case by chance."""
        return Choice(one.goroutine, self.random.choice(one.cases) if one.cases else 0)


class RoundRobin(Chooser):
    """One step each, in the order of their names."""

    takes_chance = False
    last = ""

    def choose(self, ready: Sequence[Ready]) -> Choice:
        names = sorted((one.goroutine for one in ready), key=name_order)
        behind = [name for name in names if self.last and name_order(name) > name_order(self.last)]
        self.last = (behind or names)[0]
        return Choice(self.last)


class Evenly(Chooser):
    """Each goroutine that is ready is as likely as any other, and so is each case."""

    def choose(self, ready: Sequence[Ready]) -> Choice:
        return self.any_case(self.random.choice(ready))


class FirstInFirstOut(Chooser):
    """A goroutine goes on until it waits; then the one that has been ready the longest."""

    takes_chance = False
    current = ""

    def choose(self, ready: Sequence[Ready]) -> Choice:
        names = [one.goroutine for one in ready]
        self.current = self.current if self.current in names else names[0]
        return Choice(self.current)


class LastMadeReady(Chooser):
    """As the run queue of Go's own scheduler on one processor: a goroutine goes on until it waits.

    Then comes the one that was made ready last, which has a slot before the queue; the one that it drove out of the slot went to the
    end of the queue. Time slices and the work of other processors are left out (runtime/proc.go, runqput).
    """

    takes_chance = False

    def __init__(self, random: Random, steps: int) -> None:
        super().__init__(random, steps)
        self.current = ""
        self.slot = ""
        self.queue: deque[str] = deque()

    def choose(self, ready: Sequence[Ready]) -> Choice:
        names = [one.goroutine for one in ready]
        for name in names:
            if name not in (self.current, self.slot) and name not in self.queue:
                self.put(name)
        if self.current not in names:
            self.current, self.slot = (self.slot, "") if self.slot else (self.queue.popleft(), "")
        return Choice(self.current)

    def put(self, name: str) -> None:
        if self.slot:
            self.queue.append(self.slot)
        self.slot = name


class Priorities(Chooser):
    """Random priorities that change at some steps, after Burckhardt, Kothari, Musuvathi and Nagarakatte (ASPLOS 2010).

    Of n goroutines in k steps it finds a fault that takes d orders to come with a probability of at least 1/(n * k^(d-1)) a schedule.
    """

    DEPTH = 3

    def __init__(self, random: Random, steps: int) -> None:
        super().__init__(random, steps)
        self.priorities: dict[str, float] = {}
        self.changes = [random.randint(1, max(1, steps)) for _ in range(self.DEPTH - 1)]
        self.taken = 0

    def choose(self, ready: Sequence[Ready]) -> Choice:
        for one in ready:
            self.priorities.setdefault(one.goroutine, self.DEPTH + self.random.random())
        self.taken += 1
        for rank, change in enumerate(self.changes):
            if change == self.taken:
                self.priorities[self.first(ready).goroutine] = float(rank)
        return self.any_case(self.first(ready))

    def first(self, ready: Sequence[Ready]) -> Ready:
        return max(ready, key=lambda one: self.priorities[one.goroutine])


# Makes the chooser of a schedule.
Make = Callable[[Random, int], Chooser]
CHOOSERS: dict[str, Make] = {
    "round-robin": RoundRobin,
    "random": Evenly,
    "priorities": Priorities,
    "last-made-ready": LastMadeReady,
    "first-in-first-out": FirstInFirstOut,
}
FILE = ".py"


def chooser_of(name: str) -> Make:
    """What makes choosers of a name, or of the class in a file of Python."""
    if name in CHOOSERS:
        return CHOOSERS[name]
    if not name.endswith(FILE):
        raise RewindError(f"there is no scheduler '{name[:40]}': there are {', '.join(CHOOSERS)}, and files that end in {FILE}")
    return class_in(name)


def class_in(path: str) -> Make:
    """The class of a file that has a method `choose`; it is made with the chance and the steps that each chooser gets."""
    try:
        spec = importlib.util.spec_from_file_location("scheduler", path)
        if spec is None or spec.loader is None:
            raise RewindError(f"{path} is no file of Python")
        module = importlib.util.module_from_spec(spec)
        spec.loader.exec_module(module)
    except RewindError:
        raise
    except Exception as fault:  # whatever a file of a user does
        raise RewindError(f"{path} cannot be taken as a scheduler: {type(fault).__name__}: {fault}") from None
    own = [it for _, it in inspect.getmembers(module, inspect.isclass) if it.__module__ == "scheduler" and hasattr(it, "choose")]
    if len(own) != 1:
        raise RewindError(f"{path} has {len(own) or 'no'} class{'es' * (len(own) > 1)} with a method 'choose': it must have one")
    made: Make = own[0]
    return made
