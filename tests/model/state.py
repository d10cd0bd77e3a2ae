"""What a running program has: goroutines, channels, and the steps that were taken."""
from __future__ import annotations

from dataclasses import dataclass, field
from typing import Any, Optional

# What steps read and write: each place is a kind with names and numbers.
Places = set[tuple[object, ...]]


@dataclass(eq=False)
class Goroutine:
    """A goroutine: its status is `ready`, `waiting` or `done`."""

    name: str
    status: str = "ready"
    steps: int = 0
    children: int = 0
    made: int = 0
    lines: list[str] = field(default_factory=list)
    frames: list[Any] = field(default_factory=list)
    # The channels that it waits for.
    waits: list[str] = field(default_factory=list)
    # What came of all that it asked for, which decides where it stands.
    given: list[Any] = field(default_factory=list)
    run: Any = None
    ask: Any = None

    def go_on(self, value: Any) -> None:
        """Goes on with what came of what it asked for."""
        self.status, self.waits = "ready", []
        self.given.append(value)
        try:
            self.ask = self.run.send(value)
        except StopIteration:
            self.status, self.ask = "done", None


@dataclass(eq=False)
class Waiter:
    """A goroutine in a queue of a channel, with the number of its clause and the value to send."""

    go: str
    case: Optional[int]
    value: Any = None


@dataclass(eq=False)
class Channel:
    """A channel; the values that entered are counted, and so are those that left."""

    name: str
    capacity: int
    closed: bool = False
    items: list[Any] = field(default_factory=list)
    head: int = 0
    senders: list[Waiter] = field(default_factory=list)
    receivers: list[Waiter] = field(default_factory=list)

    def slot(self, number: int) -> Places:
        return {("slot", self.name, number % self.capacity)} if self.capacity else set()

    @property
    def tail(self) -> int:
        return self.head + len(self.items)

    def reads_of_send(self) -> Places:
        return {("gate", self.name), ("tail", self.name)} | self.slot(self.tail)

    def reads_of_receive(self) -> Places:
        return {("gate", self.name), ("head", self.name)} | self.slot(self.head)

    def can_send(self) -> bool:
        return self.closed or bool(self.receivers) or len(self.items) < self.capacity

    def can_receive(self) -> bool:
        return self.closed or bool(self.senders) or bool(self.items)


@dataclass
class Step:
    """A step that was taken."""

    go: str
    number: int
    choice: Any
    kind: str = ""
    reads: Places = field(default_factory=set)
    writes: Places = field(default_factory=set)
    printed: Optional[str] = None
    # What it did with a channel (`send` or `receive`), and which.
    operation: Optional[tuple[str, str]] = None
    gives: list[str] = field(default_factory=list)
    started: Optional[str] = None

    @property
    def name(self) -> str:
        return f"{self.go}#{self.number}"

    def conflicts(self, other: Step) -> bool:
        return bool(self.writes & (other.reads | other.writes) or other.writes & self.reads)
