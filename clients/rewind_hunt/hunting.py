"""The hunt: many schedules, in some processes at once, and what they found by its kind."""
from __future__ import annotations

import signal
import time
from collections.abc import Callable, Generator
from concurrent.futures import ProcessPoolExecutor
from concurrent.futures.process import BrokenProcessPool
from contextlib import closing
from dataclasses import dataclass, field
from typing import Any, NamedTuple, Optional, Pattern, Union

from rewind_client.core import Core
from rewind_client.errors import ProcessError, RewindError
from rewind_client.finding import start
from rewind_client.program import Program, read_program

from .choosers import chooser_of
from .outcomes import Judge, Kind, Outcome, Spot
from .schedules import End, Scheduler

# Schedules that a process is given at once, and how many shares are made at most.
SHARE = 8
MOST_SHARES = 2000
ENDS = {End.FAULT: Kind.PANIC, End.DEADLOCK: Kind.DEADLOCK, End.UNENDED: Kind.UNENDED}
Outcomes = Generator[Union[Outcome, str], None, None]


class Found(NamedTuple):
    """What there is against schedules: the kind, the fault, and where the goroutines stand that it is about."""

    kind: Kind
    fault: str = ""
    spots: tuple[Spot, ...] = ()


class Row(NamedTuple):
    """What schedules of one row of the table have in common: how they ended, whether goroutines leak, and the lines printed."""

    end: End
    fault: str
    spots: tuple[Spot, ...]
    leaks: bool
    lines: tuple[str, ...]


@dataclass(frozen=True)
class Plan:
    """What is hunted for, and how. The processes read the source at `path`; the user calls it `name`."""

    rewind: str
    path: str
    name: str = ""
    runs: int = 200
    seed: int = 1
    jobs: int = 1
    most_steps: int = 5000
    expected: Optional[Pattern[str]] = None
    ignored: tuple[Kind, ...] = ()
    stop: bool = False
    # The schedulers, each of which takes so many schedules; without one they are taken in several manners.
    schedulers: tuple[str, ...] = ()

    def numbers(self) -> list[int]:
        """The schedules that are taken: those of each scheduler, one after the other."""
        by_chance = [getattr(chooser_of(name), "takes_chance", True) for name in self.schedulers] or [True]
        shares = [range(at * self.runs, at * self.runs + (self.runs if takes else 1)) for at, takes in enumerate(by_chance)]
        return [number for share in shares for number in share]

    def scheduler_of(self, number: int) -> str:
        """The scheduler of a schedule, or an empty text."""
        return self.schedulers[number // self.runs] if self.schedulers else ""

    def scheduler(self, program: Program) -> Scheduler:
        choosers = {name: chooser_of(name) for name in self.schedulers}
        return Scheduler(self.begin, program, self.seed, self.most_steps, lambda number: choosers.get(self.scheduler_of(number)))

    def begin(self) -> Core:
        """Starts a process."""
        return start(self.rewind, self.path)

    def program(self) -> Program:
        return read_program(self.path)


@dataclass
class Hunt:
    """The outcomes of the schedules that were taken."""

    plan: Plan
    outcomes: list[Outcome] = field(default_factory=list)
    seconds: float = 0.0
    # How many goroutines each schedule that ended left at a spot, where that is the same number for all of them.
    servers: Optional[dict[Spot, int]] = None
    # Whether some of the schedules that ended left other goroutines than the rest.
    has_leaks: bool = False

    def add(self, outcome: Outcome) -> None:
        self.outcomes.append(outcome)
        if outcome.end is not End.ENDED:
            return
        left = outcome.left
        if self.servers is None:
            self.servers = dict(left)
        same = {spot: number for spot, number in self.servers.items() if left[spot] == number}
        self.has_leaks = self.has_leaks or same != self.servers or same != left
        self.servers = same

    # What there is against an outcome.

    def leaks(self, outcome: Outcome) -> tuple[Spot, ...]:
        """Where an outcome leaves goroutines, but for those that every schedule leaves there."""
        servers = self.servers or {}
        return tuple(spot for spot, number in outcome.left.items() if servers.get(spot) != number)

    def is_unexpected(self, outcome: Outcome) -> bool:
        """Whether the user has told what is to be printed, and this is something else."""
        expected = self.plan.expected
        return bool(expected and outcome.end is End.ENDED and not expected.search("\n".join(outcome.console)))

    def against(self, outcome: Outcome) -> list[Found]:
        """What there is against an outcome."""
        if outcome.end is not End.ENDED:
            return [Found(ENDS[outcome.end], outcome.fault, outcome.places)]
        found = [Found(Kind.LEAK, spots=(spot,)) for spot in self.leaks(outcome)]
        return found + [Found(Kind.OUTPUT)] * self.is_unexpected(outcome)

    def bad(self, outcome: Outcome) -> list[Found]:
        """What there is against an outcome, but for what the user ignores."""
        return [found for found in self.against(outcome) if found.kind not in self.plan.ignored]

    def is_well(self, outcome: Outcome) -> bool:
        return not self.bad(outcome)

    def stops(self, outcome: Outcome) -> bool:
        """Whether a hunt to the first bad schedule ends with an outcome that was just added."""
        return not self.is_well(outcome) or (self.has_leaks and Kind.LEAK not in self.plan.ignored)

    # All of them.

    def groups(self) -> dict[Found, list[Outcome]]:
        """The bad outcomes by what there is against them, the worst kinds and then the most frequent ones first."""
        groups: dict[Found, list[Outcome]] = {}
        for outcome in self.outcomes:
            for found in self.bad(outcome):
                groups.setdefault(found, []).append(outcome)
        order = list(Kind)
        return dict(sorted(groups.items(), key=lambda item: (order.index(item[0].kind), -len(item[1]))))

    def rows(self) -> dict[Row, list[Outcome]]:
        """The outcomes by how they ended and what they printed, whatever the order of the lines; the most frequent ones first."""
        rows: dict[Row, list[Outcome]] = {}
        for outcome in self.outcomes:
            rows.setdefault(self.row(outcome), []).append(outcome)
        return dict(sorted(rows.items(), key=lambda item: -len(item[1])))

    def row(self, outcome: Outcome) -> Row:
        """The row of an outcome; what a schedule printed that did not end does not tell it from others."""
        if outcome.end is End.ENDED:
            return Row(End.ENDED, "", (), bool(self.leaks(outcome)), tuple(sorted(outcome.console)))
        return Row(outcome.end, outcome.fault, outcome.places, False, ())

    def outputs(self) -> dict[tuple[str, ...], list[Outcome]]:
        """The outcomes that ended by the lines that they printed, whatever their order; the most frequent ones first."""
        found: dict[tuple[str, ...], list[Outcome]] = {}
        for outcome in self.outcomes:
            if outcome.end is End.ENDED:
                found.setdefault(tuple(sorted(outcome.console)), []).append(outcome)
        return dict(sorted(found.items(), key=lambda item: -len(item[1])))

    def is_open(self) -> bool:
        """Whether different things were printed, and the user has not told what is right."""
        asks = self.plan.expected is None and Kind.OUTPUT not in self.plan.ignored
        return asks and len(self.outputs()) > 1

    def has_come_to(self, wanted: Outcome, found: Found, come: Outcome) -> bool:
        """Whether an outcome has the same against it as another one; where that is nothing, whether it printed the same."""
        if come.end is not wanted.end or come.fault != wanted.fault:
            return False
        if come.end is not End.ENDED:
            return come.places == wanted.places
        return found.spots[0] in self.leaks(come) if found.kind is Kind.LEAK else come.console == wanted.console


class Interrupts:
    """Takes account of a first Ctrl-C, where an exception in the midst of the processes would leave them; a second one is raised."""

    def __init__(self) -> None:
        self.came = False

    def note(self, _number: int, _frame: Any) -> None:
        if self.came:
            raise KeyboardInterrupt
        self.came = True

    def __enter__(self) -> Interrupts:
        self.before = signal.signal(signal.SIGINT, self.note)
        return self

    def __exit__(self, *_: object) -> None:
        signal.signal(signal.SIGINT, self.before)


def hunt(plan: Plan, told: Callable[[Hunt], None]) -> Hunt:
    """Takes the schedules; `told` is called after each. A Ctrl-C ends the hunt with what was found so far."""
    found = Hunt(plan)
    begun = time.monotonic()
    with Interrupts() as interrupts, closing(in_processes(plan) if plan.jobs > 1 else here(plan)) as outcomes:
        for outcome in outcomes:
            if isinstance(outcome, str):
                raise ProcessError(outcome)
            found.add(outcome)
            told(found)
            if interrupts.came or (plan.stop and found.stops(outcome)):
                break
    found.seconds = time.monotonic() - begun
    found.outcomes.sort(key=lambda outcome: outcome.number)
    return found


class Hunter:
    """One process that takes schedules."""

    def __init__(self, plan: Plan) -> None:
        self.scheduler = plan.scheduler(plan.program())
        self.judge = Judge(self.scheduler)

    def outcome(self, number: int) -> Outcome:
        return self.judge.outcome(number, self.scheduler.take(number))


def here(plan: Plan) -> Outcomes:
    """The outcomes one after the other, by this process."""
    hunter = Hunter(plan)
    try:
        for number in plan.numbers():
            yield hunter.outcome(number)
    finally:
        hunter.scheduler.end()


def in_processes(plan: Plan) -> Outcomes:
    """The outcomes of some processes at once, in the order of their numbers; a text says what went wrong.

    Where the system has no locks between processes, as Python 3.9 has none without /dev/shm, this process finds them all.
    """
    try:
        pool = ProcessPoolExecutor(plan.jobs, initializer=ignore_interrupts)
        outcomes = pool.map(Share(plan), plan.numbers(), chunksize=max(SHARE, plan.runs // MOST_SHARES))
    except (OSError, NotImplementedError, ImportError):
        yield from here(plan)
        return
    try:
        yield from outcomes
    except BrokenProcessPool:
        yield "a process of the hunt has ended before its time"
    finally:
        pool.shutdown(cancel_futures=True)


def ignore_interrupts() -> None:
    """A Ctrl-C at the terminal is for the process that began the others; before this they take account of it and go on."""
    signal.signal(signal.SIGINT, signal.SIG_IGN)


class Share:
    """The work of a process of the pool, which begins its `rewind` at its first schedule."""

    hunter: Optional[Hunter] = None

    def __init__(self, plan: Plan) -> None:
        self.plan = plan

    def __call__(self, number: int) -> Union[Outcome, str]:
        try:
            Share.hunter = Share.hunter or Hunter(self.plan)
            return Share.hunter.outcome(number)
        except RewindError as fault:
            return str(fault)
