"""All schedules of a program, by the plain model: each step of each ready goroutine, with each clause that it could take.

Nothing is left out and no order is preferred, so this is what a search of all schedules is compared with. A state is told by what
each goroutine was given so far, which decides where it stands, and by what is in the channels.
"""
from __future__ import annotations

from collections import deque
from collections.abc import Iterator
from dataclasses import dataclass, field
from typing import NamedTuple, Optional

from .state import Channel
from .trees import Function
from .world import Refused, World

ENDED, STUCK, FAULT, LEAK = "ended", "stuck", "fault", "leak"
BAD = (STUCK, FAULT)


class TooMany(Exception):
    """There are more states than were asked for."""


class Choice(NamedTuple):
    """Whose step, and the clause that it takes; none for the usual choice."""

    go: str
    clause: Optional[int]

    def command(self) -> str:
        return f"step {self.go}" + (f" {self.clause}" if self.clause else "")


@dataclass
class Node:
    """A state: the fewest steps to it, how the program ends there, if it does, whether it leaks, and the states that follow."""

    way: tuple[Choice, ...]
    end: str = ""
    leaks: bool = False
    nexts: list[int] = field(default_factory=list)


class Schedules:
    """The states to which schedules lead, those of the fewest steps first."""

    def __init__(self, functions: dict[str, Function], most: int) -> None:
        self.functions, self.most = functions, most
        self.nodes: list[Node] = []
        self.numbers: dict[object, int] = {}
        self.number(World(functions), ())
        waiting = deque([0])
        while waiting:
            node = self.nodes[waiting.popleft()]
            known = len(self.nodes)
            world = self.world(node.way)
            node.end, node.leaks = end_of(world), leaks(world)
            node.nexts = [] if node.end else list(self.followers(node.way))
            waiting.extend(range(known, len(self.nodes)))

    def world(self, way: tuple[Choice, ...]) -> World:
        """The state behind some steps from the start."""
        world = World(self.functions)
        for choice in way:
            world.step(*choice)
        return world

    def followers(self, way: tuple[Choice, ...]) -> Iterator[int]:
        """The numbers of the states that one step leads to."""
        for choice in choices(self.world(way)):
            world = self.world(way)
            try:
                world.step(*choice)
            except Refused:
                continue
            yield self.number(world, (*way, choice))

    def number(self, world: World, way: tuple[Choice, ...]) -> int:
        """The number of a state, which is a new one where the state was not met."""
        found = self.numbers.setdefault(key_of(world), len(self.nodes))
        if found == len(self.nodes):
            if found == self.most:
                raise TooMany
            self.nodes.append(Node(way))
        return found

    def shortest_bad(self, with_leaks: bool = False) -> Optional[Node]:
        """A bad end of the fewest steps."""
        return next((node for node in self.nodes if node.end in BAD or with_leaks and node.leaks), None)

    def ending_well(self) -> set[int]:
        """The states from which some schedule ends well."""
        before: dict[int, list[int]] = {}
        for number, node in enumerate(self.nodes):
            for after in node.nexts:
                before.setdefault(after, []).append(number)
        found = {number for number, node in enumerate(self.nodes) if node.end == ENDED}
        waiting = list(found)
        while waiting:
            new = set(before.get(waiting.pop(), ())) - found
            found |= new
            waiting += new
        return found

    def to_blame(self, way: tuple[Choice, ...]) -> str:
        """The first step of a run behind which no schedule ends well any more, by its name; nothing where there is none."""
        well = self.ending_well()
        states = [self.numbers[key_of(self.world(way[:steps]))] for steps in range(len(way) + 1)]
        if states[0] not in well:
            return ""
        first = next((at for at, state in enumerate(states) if state not in well), None)
        if first is None:
            return ""
        last = way[first - 1]
        return f"{last.go}#{sum(it.go == last.go for it in way[:first])}"


def end_of(world: World) -> str:
    """How the program ends here, or nothing where it goes on."""
    return world.end[0] if world.end else "" if world.ready() else STUCK


def leaks(world: World) -> bool:
    """Whether the program has ended, some goroutine that is left waits, and none is ready."""
    return world.end == (ENDED,) and not world.ready() and any(it.status == "waiting" for it in world.goroutines.values())


def choices(world: World) -> list[Choice]:
    """The steps that may be possible, each goroutine's usual one first."""
    return [Choice(go, clause) for go in world.ready() for clause in (None, *clauses_of(world, go))]


def clauses_of(world: World, go: str) -> range:
    ask = world.goroutines[go].ask
    return range(1, len(ask.clauses) + 1) if ask.form == "select" else range(1, 1)


def key_of(world: World) -> object:
    """A state as a value that two states have only where they go on alike."""
    goroutines = sorted((it.name, it.status, repr(it.given)) for it in world.goroutines.values())
    return repr((world.end, goroutines, [contents(it) for _, it in sorted(world.channels.items())]))


def contents(channel: Channel) -> object:
    queues = [[(it.go, it.case, it.value) for it in queue] for queue in (channel.senders, channel.receivers)]
    return channel.name, channel.closed, channel.items, queues
