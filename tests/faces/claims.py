"""Each claim of `why` beside what the core itself says. Nothing of the clients is used: the sentences are read as a person reads them.

Who waits, and with what value, is in `show` and `chan`. The steps behind the items of a buffer are those that `back send C K` names:
the items are the sends behind those that were received. That nobody can serve one that waits is tried by going on at random: it must
wait as before. One that is served must have been served by a goroutine that was named, or by one that such a goroutine started.
"""
from __future__ import annotations

import random
import re
from collections.abc import Iterable
from typing import NamedTuple, Optional

from support.session import Session

NAME = r"g0(?:\.\d+)*"
WAITS = re.compile(rf"({NAME}) (waits|would wait for ever) to (.+) at line (\d+): ")
WISH = re.compile(rf"(send|receive)(?: (\S+))? (?:to|from) (?:\w+ \()?({NAME}/c\d+)\)?")
HOLD = re.compile(
    rf"    ({NAME})(?: itself|, which is done,|, which may still .*? it,|, which never .*? again,) "
    rf"(?:put (\S+) into|took the last item of) .*\('back ({NAME}#\d+)' takes that back\)$"
)
SERVERS = re.compile(r"    it waits for (.+), which may still ")
NOBODY = ("    no other goroutine can still ", "    nobody will send to ")


class State(NamedTuple):
    """Where a goroutine stands: the word for its state, the count of its steps and its line."""

    word: str
    steps: int
    line: int


class Wish(NamedTuple):
    """What a goroutine waits for: to send a value to a channel, or to receive from it."""

    verb: str
    channel: str
    value: str


class Told:
    """A goroutine that waits, as it is told: its wishes, and the lines below."""

    def __init__(self, found: re.Match[str]) -> None:
        self.name, self.line = found[1], int(found[4])
        self.wishes = [Wish(verb, channel, value or "") for verb, value, channel in WISH.findall(found[3])]
        self.below: list[str] = []


def waits_in(lines: Iterable[str]) -> list[Told]:
    """What is told of each goroutine that waits."""
    found: list[Told] = []
    for line in lines:
        waits = WAITS.match(line)
        if waits:
            found.append(Told(waits))
        elif line.startswith("    ") and found:
            found[-1].below.append(line)
    return found


class Claims:
    """The claims of a state, tried in a session that stands there."""

    def __init__(self, core: Session, lines: Iterable[str]) -> None:
        self.core = core
        self.waits = waits_in(lines)
        self.faults: list[str] = []

    def expect(self, is_so: bool, what: str) -> None:
        if not is_so:
            self.faults.append(what)

    def state(self, name: str) -> State:
        return states(self.core, [name])[name]

    def queues(self, channel: str) -> list[list[str]]:
        """The items of a channel, and who waits to send and to receive."""
        return [line.split(" ")[2:] for line in self.core.ask(f"chan {channel}")[1:4]]

    def transfers(self, word: str, channel: str) -> list[str]:
        """The steps of all kept sends to a channel, or receives from it, in their order."""
        found: list[str] = []
        while True:
            reply = self.core.ask(f"back {word} {channel} {len(found) + 1}")[-1]
            if not reply.startswith("ok"):
                return found
            found.append(reply.split(" ")[2])
            self.core.ask("redo")

    # What stands.

    def check(self) -> None:
        """Looks at all claims but those about what is to come."""
        for told in self.waits:
            state = self.state(told.name)
            self.expect(state.word == "waiting" and state.line == told.line, f"{told.name} does not wait at line {told.line}")
            for verb, channel, value in told.wishes:
                queue = self.queues(channel)[1 if verb == "send" else 2]
                own = [re.sub(r"@\d+", "", it) for it in queue if re.split("[@=]", it)[0] == told.name]
                wanted = f"{told.name}={value}" if verb == "send" else told.name
                self.expect(wanted in own, f"{told.name} is not in the queue of {channel}: {queue}")
            self.check_holds(told)

    def check_holds(self, told: Told) -> None:
        channels = [wish.channel for wish in told.wishes]
        for found in filter(None, map(HOLD.match, told.below)):
            name, value, step = found[1], found[2], found[3]
            self.expect(step.startswith(f"{name}#"), f"{step} is no step of {name}")
            is_done = self.state(name).word == "done"
            self.expect(is_done == ("which is done" in found[0]), f"{name} is told to be done, or not, and is not, or is")
            if value is not None:
                self.expect(any(self.is_item(channel, step, value) for channel in channels), f"{step} did not put the item {value}")
            else:
                self.expect(any(self.is_last_taken(channel, step) for channel in channels), f"{step} did not take the last item")

    def is_item(self, channel: str, step: str, value: str) -> bool:
        """Whether an item with the value lies in the buffer, and the step sent it."""
        items = self.queues(channel)[0]
        if self.has_select_waits():
            return value in items and self.changes(channel, step)
        sent = self.transfers("send", channel)
        waiting = len([it for it in self.queues(channel)[1] if "@" not in it])
        behind = sent[len(sent) - waiting - len(items) : len(sent) - waiting]
        return (step, value) in zip(behind, items)

    def has_select_waits(self) -> bool:
        """Whether a select waited: what it sent or received then is none of the sends and receives that are counted."""
        return any(line.endswith(" select-wait") for line in self.core.ask("log")[:-1])

    def changes(self, channel: str, step: str) -> bool:
        """Whether the channel is another one without the step, or others wait for it, or by other steps."""
        before = self.standing(channel)
        self.core.ask(f"back {step}")
        after = self.standing(channel)
        self.core.ask("redo")
        return before != after

    def standing(self, channel: str) -> tuple[list[str], list[str]]:
        """A channel, and the steps by which others wait for it."""
        last = {line.split(" ")[1].split("#")[0]: line for line in self.core.ask("log")[:-1]}
        _, senders, receivers = self.queues(channel)
        return self.core.ask(f"chan {channel}"), [last[re.split("[@=]", it)[0]] for it in (*senders, *receivers)]

    def is_last_taken(self, channel: str, step: str) -> bool:
        """Whether the step took the last item of a buffer."""
        if self.has_select_waits():
            return not self.queues(channel)[0] and self.changes(channel, step)
        taken = self.transfers("recv", channel)
        waiting = len([it for it in self.queues(channel)[2] if "@" not in it])
        return not self.queues(channel)[0] and taken[len(taken) - waiting - 1 : len(taken) - waiting] == [step]

    # What is to come.

    def servers(self, told: Told) -> Optional[set[str]]:
        """Those that may serve: who is named, and who waits for the same itself. Nothing where more are named elsewhere."""
        own = {wish[:2] for wish in told.wishes}
        named = {it.name for it in self.waits if it is not told and any(wish[:2] in own for wish in it.wishes)}
        for line in told.below:
            found = SERVERS.match(line)
            if found:
                named.update(re.findall(NAME, found[1]))
                if " more" in found[1]:
                    return None
            holds = HOLD.match(line)
            if holds and "which may still" in line or line.startswith("    only "):
                return None
        return named

    def go_on(self, chance: random.Random, steps: int, cycle: Iterable[str]) -> None:
        """Goes on at random, and looks at who is served by whom."""
        named = {told.name: self.servers(told) for told in self.waits}
        walk = Walk(self.core, chance)
        asleep, senders = set(named), {told.name: told.wishes[0].verb == "send" for told in self.waits if told.wishes}
        for _ in range(steps):
            name, reply = walk.step()
            if not name or reply[2] in ("exit", "fault"):
                break
            for other in [it for it in asleep if walk.states[it].word != "waiting"]:
                is_fault = reply[2] == "close" and senders[other]
                self.served(other, name, None if is_fault else named[other], walk.started)
                self.expect(other not in cycle, f"{other} is in a cycle, and {name} served it")
                asleep.discard(other)

    def served(self, other: str, name: str, named: Optional[set[str]], started: dict[str, str]) -> None:
        """Looks whether the one that served, or one that started it, was named."""
        if named is None:
            return
        while name in started and name not in named:
            name = started[name]
        self.expect(name in named, f"{other} was served by {name}, and {', '.join(sorted(named)) or 'nobody'} was told")


class Walk:
    """Random steps of the goroutines that are ready."""

    def __init__(self, core: Session, chance: random.Random) -> None:
        self.core, self.chance = core, chance
        self.counts = children(core)
        self.started: dict[str, str] = {}
        self.states: dict[str, State] = {}
        self.look()

    def look(self) -> None:
        """Asks where each goroutine stands."""
        self.states = states(self.core, list(self.counts))

    def step(self) -> tuple[str, list[str]]:
        """A step of a goroutine that is ready: its name and the words of the reply; an empty name where none is."""
        ready = [name for name, state in self.states.items() if state.word == "ready"]
        if not ready:
            return "", []
        name = self.chance.choice(ready)
        reply = self.core.ask(f"step {name}")[-1].split(" ")
        if reply[0] != "ok":
            return "", []
        if reply[2] == "go":
            self.counts[name] += 1
            child = f"{name}.{self.counts[name]}"
            self.counts[child], self.started[child] = 0, name
        self.look()
        return name, reply


def children(core: Session) -> dict[str, int]:
    """The goroutines that are there, in the order of their starts, each with the number of those that it started."""
    counts = {"g0": 0}
    for step in core.log():
        if step.kind == "go":
            counts[step.goroutine] += 1
            counts[f"{step.goroutine}.{counts[step.goroutine]}"] = 0
    return counts


def states(core: Session, names: list[str]) -> dict[str, State]:
    """Of each goroutine where it stands, asked at once."""
    found = {}
    for name, reply in zip(names, core.ask_all(f"show {name}" for name in names)):
        words = reply[0].split()
        found[name] = State(words[2], int(words[3]), int(words[5]) if len(words) > 5 else 0)
    return found
