"""The state of a running program, and the step of each event with what it touches."""
from __future__ import annotations

from typing import Optional

from .running import Ask, Case, Run
from .state import Channel, Goroutine, Step, Waiter
from .trees import Function
from .values import Fault, Value

MOST_FRAMES, MOST_COUNTS, LARGEST = 1_000, 32, 1_000_000
RUN = ("run",)

# A value that was received, and whether it was sent; nothing where a goroutine waits.
Pair = tuple[Value, Optional[bool]]


class Refused(Exception):
    """Why an event is no step; its text is the code."""


class World:
    """A program that runs."""

    def __init__(self, functions: dict[str, Function]) -> None:
        self.functions = functions
        # Why it goes no further, in words; empty where it goes on.
        self.end: tuple[str, ...] = ()
        self.goroutines: dict[str, Goroutine] = {}
        self.channels: dict[str, Channel] = {}
        self.start("g0", functions["main"], [])

    def start(self, name: str, function: Function, arguments: list[Value]) -> None:
        goroutine = Goroutine(name)
        goroutine.run = Run(self.functions, goroutine).call(function, arguments)
        self.goroutines[name] = goroutine
        goroutine.go_on(None)

    def ready(self) -> list[str]:
        return sorted((it for it in self.goroutines if self.goroutines[it].status == "ready"), key=counts)

    # Steps

    def step(self, go: str, choice: Optional[int]) -> Step:
        """Takes a step of a goroutine, with a choice of a select: a clause, None for the usual choice."""
        goroutine = self.allowed(go)
        ask = goroutine.ask
        if ask.form != "select" and choice is not None:
            raise Refused("N5")
        step = Step(go, goroutine.steps + 1, choice)
        step.reads.add(RUN)
        step.writes.add(("go", go))
        try:
            result = getattr(self, "take_" + ask.form.replace("return", "return_"))(goroutine, ask, step)
        except Fault as fault:
            goroutine.steps += 1
            step.kind = f"fault {fault}"
            step.gives, step.operation, step.started = [], None, None
            step.writes.add(RUN)
            self.end = ("fault", str(fault))
            return step
        goroutine.steps += 1
        if goroutine.status == "ready":
            goroutine.go_on(result)
        return step

    def allowed(self, go: str) -> Goroutine:
        if self.end:
            raise Refused("N1")
        goroutine = self.goroutines.get(go)
        if not goroutine:
            raise Refused("N2")
        if goroutine.status == "done":
            raise Refused("N4")
        if goroutine.status == "waiting":
            raise Refused("N3")
        return goroutine

    def take_pure(self, goroutine: Goroutine, ask: Ask, step: Step) -> Value:
        step.kind = "pure"
        step.gives = ask.gives
        return ask.found()

    def take_print(self, goroutine: Goroutine, ask: Ask, step: Step) -> None:
        step.kind = "pure"
        printed = str(ask.found())
        step.printed = printed
        goroutine.lines.append(printed)

    def take_call(self, goroutine: Goroutine, ask: Ask, step: Step) -> Value:
        arguments = ask.found()
        if len(goroutine.frames) == MOST_FRAMES:
            raise Fault("CallDepth")
        step.kind, step.gives = "call", ask.gives
        return arguments

    def take_return_(self, goroutine: Goroutine, ask: Ask, step: Step) -> Value:
        value = ask.found()
        goroutine.frames.pop()
        step.kind = "return"
        if not goroutine.frames and goroutine.name == "g0":
            step.kind = "exit"
            step.writes.add(RUN)
            self.end = ("ended",)
        return value

    def take_go(self, goroutine: Goroutine, ask: Ask, step: Step) -> None:
        arguments = ask.found()
        if goroutine.name.count(".") == MOST_COUNTS:
            raise Fault("NameDepth")
        goroutine.children += 1
        step.kind, step.started = "go", f"{goroutine.name}.{goroutine.children}"
        step.writes.add(("go", step.started))
        self.start(step.started, ask.value, arguments)

    def take_make(self, goroutine: Goroutine, ask: Ask, step: Step) -> Value:
        size = (ask.found() or [0])[0]
        if not 0 <= size <= LARGEST:
            raise Fault("BadSize")
        goroutine.made += 1
        name = f"{goroutine.name}/c{goroutine.made}"
        step.kind = "make"
        step.writes.add(("gate", name))
        self.channels[name] = Channel(name, size)
        return name

    def take_len(self, goroutine: Goroutine, ask: Ask, step: Step) -> int:
        step.kind = "length"
        channel = self.channels.get(ask.found()[0])
        if not channel:
            return 0
        step.reads |= {("gate", channel.name), ("head", channel.name), ("tail", channel.name)}
        return len(channel.items)

    def take_cap(self, goroutine: Goroutine, ask: Ask, step: Step) -> Value:
        step.kind = "length"
        channel = self.channels.get(ask.found()[0])
        if not channel:
            return 0
        step.reads.add(("gate", channel.name))
        return channel.capacity

    def take_close(self, goroutine: Goroutine, ask: Ask, step: Step) -> None:
        name = ask.found()
        if name is None:
            raise Fault("CloseOfNil")
        channel = self.channels[name]
        step.reads.add(("gate", name))
        if channel.closed:
            raise Fault("CloseOfClosed")
        step.kind, step.operation = "close", ("close", name)
        step.writes.add(("gate", name))
        channel.closed = True
        for waiter in [*channel.senders, *channel.receivers]:
            partner = self.goroutines[waiter.go]
            if partner.status == "waiting":
                self.withdraw(partner, step)
                partner.status, partner.waits = "ready", []

    def take_send(self, goroutine: Goroutine, ask: Ask, step: Step) -> None:
        name, value = ask.found()
        self.send(goroutine, name, value, step, None)

    def take_receive(self, goroutine: Goroutine, ask: Ask, step: Step) -> Value:
        return self.receive(goroutine, ask.found()[0], ask.value, step, None)

    # Communications. The kind of a pick is set by who calls.

    def withdraw(self, partner: Goroutine, step: Step) -> None:
        """Takes a goroutine out of all queues."""
        step.writes.add(("go", partner.name))
        for name in partner.waits:
            channel = self.channels[name]
            step.writes.add(("gate", name))
            channel.senders = [it for it in channel.senders if it.go != partner.name]
            channel.receivers = [it for it in channel.receivers if it.go != partner.name]

    def wake(self, waiter: Waiter, value: Value, is_open: Optional[bool], step: Step) -> None:
        """Lets a goroutine that waited go past its operation."""
        partner = self.goroutines[waiter.go]
        self.withdraw(partner, step)
        pair = (value, is_open)
        partner.go_on(pair if waiter.case is None else (waiter.case, *pair))

    def wait(self, goroutine: Goroutine, entries: list[tuple[Channel, str, Waiter]]) -> None:
        """Waits in the queues that are told: (channel, queue, waiter)."""
        goroutine.status = "waiting"
        goroutine.waits = [channel.name for channel, _, _ in entries]
        for channel, queue, waiter in entries:
            getattr(channel, queue).append(waiter)

    def send(self, goroutine: Goroutine, name: Optional[str], value: Value, step: Step, case: Optional[int]) -> None:
        """Sends a value, or waits to."""
        if name is None:
            step.kind = "send-wait"
            self.wait(goroutine, [])
            return
        channel = self.channels[name]
        gate, tail = ("gate", name), ("tail", name)
        if channel.closed:
            step.reads.add(gate)
            raise Fault("SendOnClosed")
        step.operation = ("send", name)
        if channel.receivers:
            step.kind = "hand"
            step.reads.add(gate)
            step.writes.add(gate)
            self.wake(channel.receivers[0], value, True, step)
        elif len(channel.items) < channel.capacity:
            step.kind = "buffer"
            step.reads |= channel.reads_of_send()
            step.writes |= {tail} | channel.slot(channel.tail)
            channel.items.append(value)
        else:
            step.kind = "send-wait"
            step.reads |= channel.reads_of_send()
            step.writes.add(gate)
            self.wait(goroutine, [(channel, "senders", Waiter(goroutine.name, case, value))])

    def receive(self, goroutine: Goroutine, name: Optional[str], zero: Value, step: Step, case: Optional[int]) -> Pair:
        """Receives a value, or waits for one."""
        if name is None:
            step.kind = "recv-wait"
            self.wait(goroutine, [])
            return None, None
        channel = self.channels[name]
        gate, head = ("gate", name), ("head", name)
        step.reads |= channel.reads_of_receive()
        step.operation = ("receive", name)
        if channel.items:
            step.kind = "take"
            step.writes |= {head} | channel.slot(channel.head)
            value = channel.items.pop(0)
            channel.head += 1
            if channel.senders:
                self.move_up(channel, step)
            return value, True
        if channel.senders:
            step.kind = "meet"
            step.writes.add(gate)
            value = channel.senders[0].value
            self.wake(channel.senders[0], None, None, step)
            return value, True
        if channel.closed:
            step.kind = "closed"
            return zero, False
        step.kind = "recv-wait"
        step.writes.add(gate)
        self.wait(goroutine, [(channel, "receivers", Waiter(goroutine.name, case))])
        return None, None

    def move_up(self, channel: Channel, step: Step) -> None:
        """The value of the first sender that waits goes into the buffer."""
        gate, tail = ("gate", channel.name), ("tail", channel.name)
        step.reads.add(tail)
        step.writes |= {gate, tail}
        waiter = channel.senders[0]
        channel.items.append(waiter.value)
        self.wake(waiter, None, None, step)

    # Selects

    def can_proceed(self, case: Case) -> bool:
        name = case.name()
        if name is None:
            return False
        channel = self.channels[name]
        return channel.can_send() if case.form == "send" else channel.can_receive()

    def take_select(self, goroutine: Goroutine, ask: Ask, step: Step) -> Value:
        clauses = ask.clauses
        chosen = step.choice
        if chosen is None:
            chosen = next((i for i, case in enumerate(clauses, 1) if self.can_proceed(case)), None)
        elif chosen > len(clauses) or not self.can_proceed(clauses[chosen - 1]):
            raise Refused("N5")
        try:
            values = [case.value() if case.form == "send" else case.value for case in clauses]
        except Fault:
            self.look(clauses if chosen is None else [clauses[chosen - 1]], step)
            raise
        if chosen is None:
            return self.take_no_clause(goroutine, clauses, values, step)
        step.choice = chosen
        return self.pick(goroutine, clauses[chosen - 1], values[chosen - 1], chosen, step)

    def pick(self, goroutine: Goroutine, case: Case, value: Value, chosen: int, step: Step) -> Value:
        name = case.name()
        result: Pair = (None, None)
        if case.form == "send":
            self.send(goroutine, name, value, step, None)
        else:
            result = self.receive(goroutine, name, value, step, None)
        step.kind = f"pick {chosen}"
        return (chosen, *result)

    def look(self, clauses: list[Case], step: Step) -> None:
        """Looks at clauses as a wait of each does."""
        for case in clauses:
            name = case.name()
            if name is not None:
                channel = self.channels[name]
                step.reads |= channel.reads_of_send() if case.form == "send" else channel.reads_of_receive()

    def take_no_clause(self, goroutine: Goroutine, clauses: list[Case], values: list[Value], step: Step) -> Value:
        """Takes the default clause, or else waits on all clauses."""
        self.look(clauses, step)
        default = next((i for i, case in enumerate(clauses, 1) if case.form == "default"), None)
        if default is not None:
            step.kind = "default"
            return default, None, None
        step.kind = "select-wait"
        entries: list[tuple[Channel, str, Waiter]] = []
        for i, (case, value) in enumerate(zip(clauses, values), 1):
            name = case.name()
            if name is not None:
                queue = "senders" if case.form == "send" else "receivers"
                waiter = Waiter(goroutine.name, i, value if case.form == "send" else None)
                entries.append((self.channels[name], queue, waiter))
                step.writes.add(("gate", name))
        self.wait(goroutine, entries)
        return None


def counts(name: str) -> list[int]:
    """A name as numbers, by which names are ordered."""
    return [int(it) for it in name.split(".")[1:]]
