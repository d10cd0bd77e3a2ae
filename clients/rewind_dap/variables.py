"""Variables, goroutines and channels as lists that an editor opens, by the numbers that the protocol wants."""
from __future__ import annotations

from collections.abc import Callable, Sequence
from typing import Any, TypeVar

from rewind_client.names import is_channel
from rewind_client.replies import Channel, Goroutine, Variable, Waiter
from rewind_client.session import Session

from .arguments import BadRequest

Body = dict[str, Any]
Member = TypeVar("Member")

MAX_SHOWN = 1000
# The types of Go for which numbers stand in a program that was carried over.
TYPES = {"text": "string", "error": "error"}


class Variables:
    """The lists of one state of a session."""

    def __init__(self, session: Session, next_number: Callable[[], int]) -> None:
        self.session = session
        self.next_number = next_number
        self.children: dict[int, Callable[[], list[Body]]] = {}
        # Lists of which an editor asks for a part: how many members, and one of them.
        self.indexed: dict[int, tuple[int, Callable[[int], Body]]] = {}

    def reference(self, children: Callable[[], list[Body]]) -> int:
        number = self.next_number()
        self.children[number] = children
        return number

    def children_of(self, number: int) -> list[Body]:
        if number not in self.children:
            raise BadRequest(f"there are no variables {number} in the present state")
        return self.children[number]()

    def part_of(self, number: int, wanted: str, start: int, count: int) -> list[Body]:
        """The members of a list that are wanted: the `indexed` ones, the `named` ones, or all; from a place on, 0 is all of them."""
        if number in self.indexed:
            length, show = self.indexed[number]
            if wanted == "named":
                return []
            if count or wanted or start:
                return [show(place) for place in range(min(start, length), min(start + (count or MAX_SHOWN), length))]
        elif wanted == "indexed":
            self.children_of(number)
            return []
        bodies = self.children_of(number)
        return bodies[start : start + count] if count else bodies[start:]

    def scope(self, name: str, expensive: bool, children: Callable[[], list[Body]], hint: str = "") -> Body:
        body = {"name": name, "variablesReference": self.reference(children), "expensive": expensive}
        return {**body, "presentationHint": hint} if hint else body

    # What a scope holds.

    def of_frame(self, function: str, variables: Sequence[Variable]) -> list[Body]:
        """The variables of a frame of a function; one whose name is there before is told with a count."""
        told: dict[str, int] = {}
        bodies = []
        for variable in variables:
            told[variable.name] = count = told.get(variable.name, 0) + 1
            name = variable.name if count == 1 else f"{variable.name} ({count})"
            bodies.append(self.variable(name, variable.value, self.session.program.kind_of(function, variable.name)))
        return bodies

    def of_goroutine(self, goroutine: Goroutine) -> list[Body]:
        last = goroutine.last_step if goroutine.steps else "none"
        state, steps = goroutine.state.value, str(goroutine.steps)
        pairs = (("name", goroutine.name), ("state", state), ("steps", steps), ("last step", last))
        return [plain(name, value) for name, value in pairs]

    def of_channels(self) -> list[Body]:
        """All channels, each by the name that the source has for it."""
        return [self.variable(self.session.name_of(it.name), it.name) for it in self.session.channels()[:MAX_SHOWN]]

    # Values.

    def variable(self, name: str, value: str, kind: str = "") -> Body:
        """A variable with its value, which may stand for one of a kind; a channel can be opened."""
        shown = self.session.program.value(kind, value)
        body: Body = {"name": name, "value": shown, "type": type_of(value) if shown == value else TYPES[kind], "variablesReference": 0}
        channel = self.session.channel(value) if is_channel(value) else None
        return body if channel is None else {**body, **self.opened(channel)}

    def opened(self, channel: Channel) -> Body:
        return {"value": channel_in_words(channel), "variablesReference": self.reference(lambda: self.of_channel(channel))}

    def of_channel(self, channel: Channel) -> list[Body]:
        return [
            {**plain("capacity", str(channel.capacity)), "type": "int"},
            plain("state", state_of(channel)),
            self.items(channel),
            self.branch("senders", channel.senders, lambda _, one: self.waiter(channel, one)),
            self.branch("receivers", channel.receivers, lambda _, one: self.waiter(channel, one)),
        ]

    def items(self, channel: Channel) -> Body:
        """The items of a channel, of which an editor may ask for a part."""
        items, kind = channel.items, self.session.kind_of_channel(channel.name)
        body = self.branch("items", items, lambda place, value: self.variable(f"[{place}]", value, kind))
        if items:
            self.indexed[body["variablesReference"]] = (len(items), lambda place: self.variable(f"[{place}]", items[place], kind))
            body["indexedVariables"] = len(items)
        return body

    def branch(self, name: str, members: Sequence[Member], show: Callable[[int, Member], Body]) -> Body:
        """A list of values, the first of which is told first."""
        body = plain(name, "none" if not members else str(len(members)))
        if members:
            body["variablesReference"] = self.reference(lambda: self.of_list(members, show))
        return body

    def of_list(self, members: Sequence[Member], show: Callable[[int, Member], Body]) -> list[Body]:
        bodies = [show(place, member) for place, member in enumerate(members[:MAX_SHOWN])]
        left_out = len(members) - MAX_SHOWN
        return bodies + [plain("..", f"{left_out} more")] if left_out > 0 else bodies

    def waiter(self, channel: Channel, one: Waiter) -> Body:
        """A goroutine that waits at a channel: at which case of a select, and with which value to send, or at which line."""
        at = f" (case {one.clause})" if one.clause else ""
        if one.value:
            return self.variable(one.goroutine + at, one.value, self.session.kind_of_channel(channel.name))
        shown = self.session.goroutine(one.goroutine)
        return plain(one.goroutine + at, f"waits at line {shown.line}" if shown else "waits")


def plain(name: str, value: str) -> Body:
    return {"name": name, "value": value, "variablesReference": 0}


def type_of(value: str) -> str:
    """The type of a value, as far as the value tells it."""
    if value in ("true", "false"):
        return "bool"
    if value == "{}":
        return "struct{}"
    return "chan" if value == "nil" or "/c" in value else "int"


def state_of(channel: Channel) -> str:
    return "open" if channel.is_open else "closed"


def channel_in_words(channel: Channel) -> str:
    """A channel on one line: `g0/c1 (open, 2 of 2, 1 waits to send)`."""
    held = f"{len(channel.items)} of {channel.capacity}" if channel.capacity else "no buffer"
    parts = [state_of(channel), held]
    for waiters, wish in ((channel.senders, "send"), (channel.receivers, "receive")):
        if waiters:
            parts.append(f"{len(waiters)} {'waits' if len(waiters) == 1 else 'wait'} to {wish}")
    return f"{channel.name} ({', '.join(parts)})"
