"""Random schedules of a program, many in one process.

A command for a goroutine that cannot go on is refused and changes nothing. So a portion of random commands is sent at once, and
those that are taken are the schedule. A schedule is told by the seed of the hunt and its number, whatever else is run.
"""
from __future__ import annotations

from collections.abc import Callable, Iterable, Sequence
from dataclasses import dataclass, field
from enum import Enum
from random import Random
from typing import Optional

from rewind_client import replies
from rewind_client.core import Core, step_command, step_words
from rewind_client.errors import RewindError
from rewind_client.names import child_of, step_owner
from rewind_client.program import Program
from rewind_client.replies import Entry, KindWord, Reply

from .choosers import Chooser, Make
from .choosing import WAKING, Choosing

FIRST_PORTION = 16
PORTION = 48
BURST = 16
MEAN_BURST = 6
# Of each goroutine so many that it may start within a portion have commands in it.
NEXT_CHILDREN = 3
# The ranks of a schedule change within so many steps, if they do.
FIRST_CHANGES = 200
# A process is started anew before its journal, which takes 2,000,000 commands, is full.
MOST_COMMANDS = 1_500_000
NO_ROOM = frozenset(("Q1", "Q2", "N6"))


class Manner(Enum):
    """How the goroutine of the next step is chosen."""

    TURNS = "round robin"
    EVENLY = "evenly"
    BURSTS = "in bursts"
    RANKS = "by ranks"


class End(Enum):
    """How a schedule ended."""

    ENDED = "ended"
    FAULT = "fault"
    DEADLOCK = "deadlock"
    UNENDED = "unended"


@dataclass
class Schedule:
    """The steps that were taken, in their order, and how they ended."""

    entries: list[Entry] = field(default_factory=list)
    end: End = End.UNENDED
    # The goroutines in the order of their starts, and how many each has started.
    goroutines: list[str] = field(default_factory=lambda: ["g0"])
    started: dict[str, int] = field(default_factory=dict)
    done: set[str] = field(default_factory=set)
    # The command that took the last step: where that is a fault in a select, its kind does not tell the case.
    last_command: str = ""

    def note(self, entry: Entry) -> None:
        """Keeps a step."""
        self.entries.append(entry)
        if entry.kind.word is KindWord.GO:
            owner = step_owner(entry.step)
            self.started[owner] = self.started.get(owner, 0) + 1
            self.goroutines.append(child_of(owner, self.started[owner]))
        elif entry.kind.stops:
            self.end = End.FAULT if entry.kind.word is KindWord.FAULT else End.ENDED

    def commands(self) -> list[str]:
        """The commands that take these steps."""
        found = [step_command(entry) for entry in self.entries]
        if self.end is End.FAULT and self.last_command:
            found[-1] = self.last_command
        return found

    @property
    def stopped(self) -> bool:
        return self.end is not End.UNENDED

    @property
    def live(self) -> list[str]:
        return [name for name in self.goroutines if name not in self.done]

    def next_children(self) -> list[str]:
        """The goroutines that may be started next: a command for one is refused until it is there."""
        return [child_of(name, self.started.get(name, 0) + more) for name in self.live for more in range(1, NEXT_CHILDREN + 1)]


def no_chooser(_number: int) -> Optional[Make]:
    """No scheduler is named."""
    return None


class Scheduler:
    """Takes schedules in a process, one after the other."""

    def __init__(
        self, begin: Callable[[], Core], program: Program, seed: int, most_steps: int, chooser_of: Callable[[int], Optional[Make]] = no_chooser
    ) -> None:
        """`begin` starts a process, and a schedule of more than `most_steps` steps is unended.

        `chooser_of` gives what makes the chooser of a number; without it schedules are taken in several manners.
        """
        self.begin = begin
        self.program = program
        self.chooser_of = chooser_of
        # How many steps a round robin takes.
        self.usual_steps = 0
        self.seed = seed
        self.most_steps = most_steps
        self.clauses = max((it.case for function in program.functions.values() for it in function.flows.uses), default=0)
        self.core = begin()
        self.commands = 0
        self.schedule = Schedule()
        self.random = Random()

    def end(self) -> None:
        self.core.process.end()

    def take(self, number: int) -> Schedule:
        """Takes a schedule from the start of the program; the process stands at its end then."""
        self.go_to_start()
        self.schedule = Schedule()
        self.random = Random(f"{self.seed}/{number}")
        make = self.chooser_of(number)
        if make:
            self.by_chooser(make)
            return self.schedule
        manners = {Manner.TURNS: self.by_turns, Manner.EVENLY: self.evenly, Manner.BURSTS: self.in_bursts, Manner.RANKS: self.by_ranks}
        manners[self.manner_of(number)]()
        return self.schedule

    def manner_of(self, number: int) -> Manner:
        """The first schedule is round robin; of the others every second one evenly."""
        if number == 0:
            return Manner.TURNS
        return self.random.choice((Manner.EVENLY, Manner.EVENLY, Manner.BURSTS, Manner.RANKS))

    def go_to_start(self) -> None:
        """All steps depend on the first one, so that one command takes them back: a tenth of the time that a new process takes."""
        if self.commands > MOST_COMMANDS:
            self.core.process.end()
            self.core = self.begin()
            self.commands = 0
        elif self.commands:
            self.ask(["back g0#1"])

    # Commands.

    def ask(self, commands: Sequence[str]) -> list[Reply]:
        """The replies to some commands."""
        self.commands += len(commands)
        return self.core.process.ask_all(commands)

    def try_steps(self, commands: Sequence[str]) -> list[Entry]:
        """Sends steps, some of which may be refused; those that are taken."""
        taken = []
        for command, reply in zip(commands, self.ask(commands)):
            if reply.is_ok:
                entry = replies.stepped(reply)
                taken.append(entry)
                self.schedule.note(entry)
                self.schedule.last_command = command
            elif reply.code == "N4":
                self.schedule.done.add(command.split(" ")[1])
            elif reply.code in NO_ROOM:
                raise RewindError(f"a schedule is longer than {self.core.process.name} keeps: allow fewer --steps")
        return taken

    def step(self, goroutine: str) -> str:
        """A step of a goroutine, half of them with a case where the program has a select."""
        if self.clauses > 1 and self.random.random() < 0.5:
            return step_words(goroutine, self.random.randint(2, self.clauses))
        return step_words(goroutine)

    def goes_on(self) -> bool:
        return not self.schedule.stopped and len(self.schedule.entries) < self.most_steps

    def ends_stuck(self) -> bool:
        """Takes a step of each goroutine that is ready; where there is none, the schedule ends in a deadlock."""
        if not self.try_steps([step_words(name) for name in self.schedule.live]):
            self.schedule.end = End.DEADLOCK
            return True
        return False

    def by_chooser(self, make: Make) -> None:
        """As a scheduler chooses. How many steps there are to choose is seen of a round robin, once."""
        if not self.usual_steps:
            self.by_turns()
            self.usual_steps = len(self.schedule.entries)
            self.go_to_start()
            self.schedule = Schedule()
        if Choosing(self, self.program, made(make, self.random, self.usual_steps)).take():
            self.schedule.end = End.DEADLOCK

    # Manners.

    def by_turns(self) -> None:
        """As `run` goes."""
        reply = self.ask([f"run {self.most_steps}"])[0]
        for entry in self.core.log():
            self.schedule.note(entry)
        if replies.ran(reply).reason is replies.Reason.STUCK:
            self.schedule.end = End.DEADLOCK

    def evenly(self) -> None:
        """Each goroutine that is ready is as likely as any other."""
        self.in_portions(lambda names: [self.step(self.random.choice(names))])

    def in_bursts(self) -> None:
        """A goroutine takes some steps before another one is chosen."""
        self.in_portions(self.burst)

    def burst(self, names: Sequence[str]) -> Iterable[str]:
        name = self.random.choice(names)
        length = min(BURST, 1 + int(self.random.expovariate(1 / MEAN_BURST)))
        return [self.step(name) for _ in range(length)]

    def in_portions(self, chosen: Callable[[Sequence[str]], Iterable[str]]) -> None:
        while self.goes_on():
            names = self.schedule.live + self.schedule.next_children()
            size = FIRST_PORTION if len(self.schedule.entries) < FIRST_PORTION else PORTION
            commands: list[str] = []
            while len(commands) < size:
                commands += chosen(names)
            if not self.try_steps(commands) and self.ends_stuck():
                return

    def by_ranks(self) -> None:
        """Each goroutine has a rank, and the first one that is ready goes; now and then the first one becomes the last."""
        ranks: dict[str, float] = {}
        with_clauses = self.random.random() < 0.5
        changes = {self.random.randrange(1, FIRST_CHANGES) for _ in range(self.random.choice((0, 0, 1, 3)))}
        blocked: set[str] = set()
        while self.goes_on():
            for name in self.schedule.goroutines:
                ranks.setdefault(name, self.random.random())
            ready = sorted((name for name in self.schedule.live if name not in blocked), key=lambda name: ranks[name])
            if not ready:
                if self.ends_stuck():
                    return
                blocked.clear()
                continue
            before = len(self.schedule.entries)
            self.first_goes(ready[0], blocked, with_clauses)
            if any(before < change <= len(self.schedule.entries) for change in changes):
                ranks[ready[0]] = 1 + len(self.schedule.entries)

    def first_goes(self, name: str, blocked: set[str], with_clauses: bool) -> None:
        """Steps of the goroutine of the first rank: one where another one of a better rank may become ready, else some."""
        count = 1 if blocked else BURST
        clauses = [self.step(name) for _ in range(count)] if with_clauses else []
        taken = self.try_steps([*clauses, *[step_words(name)] * count])
        if any(entry.kind.word in WAKING for entry in taken):
            blocked.clear()
        elif not taken or taken[-1].kind.waits:
            blocked.add(name)


def made(make: Make, random: Random, steps: int) -> Chooser:
    """A chooser, which a user may have written."""
    try:
        return make(random, steps)
    except Exception as fault:  # whatever a scheduler of a user does
        raise RewindError(f"the scheduler cannot be made: {type(fault).__name__}: {fault}") from None
