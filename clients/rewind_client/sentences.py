"""Explanations in sentences."""
from __future__ import annotations

from collections.abc import Iterator, Sequence

from .explanations import Explanation, Fault, Standing, Starved
from .facts import Place, Verb
from .meanings import DEADLOCK, FAULTS
from .names import step_owner
from .endings import DRAIN, Ending, Fate
from .session import Session
from .waits import NIL, Hold, Server, Stand, Wait, Wish

MAX_WAITS = 20
MAX_NAMES = 8
MAX_ITEMS = 4
INDENT = "    "
SERVES = {Verb.SEND: "receive from", Verb.RECEIVE: "send to"}
SERVED = {Verb.SEND: "send to it", Verb.RECEIVE: "receive from it", Verb.CLOSE: "close it"}


class Sentences:
    """Writes what is known of a session."""

    def __init__(self, session: Session) -> None:
        self.session = session

    def all(self, explanation: Explanation) -> list[str]:
        """An explanation, a sentence for each line; a line that says more of the one before it is indented."""
        says = {
            Standing.DEADLOCK: self.deadlock,
            Standing.FAULT: self.fault_and_waits,
            Standing.ENDED: self.ended,
            Standing.RUNNING: self.running,
        }
        return list(says[explanation.standing](explanation))

    # How the program stands.

    def deadlock(self, explanation: Explanation) -> Iterator[str]:
        yield DEADLOCK
        yield from self.waits(explanation.waits)
        yield from self.cycle(explanation.cycle)

    def fault_and_waits(self, explanation: Explanation) -> Iterator[str]:
        if explanation.fault:
            yield from self.fault(explanation.fault)

    def ended(self, explanation: Explanation) -> Iterator[str]:
        yield ended_in_words(len(explanation.fates), sum(it.ending is Ending.WAIT for it in explanation.fates))
        waits = {wait.goroutine: wait for wait in explanation.waits}
        for fate in explanation.fates[:MAX_WAITS]:
            if fate.goroutine in waits:
                yield from self.wait(waits[fate.goroutine], "would wait for ever")
            else:
                yield self.fate(fate)
        yield from more(len(explanation.fates) - MAX_WAITS)

    def fate(self, fate: Fate) -> str:
        if fate.ending is Ending.FAULT:
            fault = FAULTS.get(fate.fault, fate.fault)
            return f"{fate.goroutine} would stop the program at {self.at(fate.place)} ({fault})"
        if fate.ending is Ending.GO_ON:
            return f"{fate.goroutine} would still go on after {'{:,}'.format(DRAIN)} steps, at {self.at(fate.place)}"
        return f"{fate.goroutine} would end"

    def running(self, explanation: Explanation) -> Iterator[str]:
        yield f"The program can go on: {ready_in_words([one.name for one in explanation.ready])}."
        for one in explanation.starved:
            yield from self.starved(one)
        yield from self.waits(explanation.waits)
        yield from self.cycle(explanation.cycle)

    # Parts.

    def fault(self, fault: Fault) -> Iterator[str]:
        yield FAULTS.get(fault.name, fault.name)
        yield f"{step_owner(fault.step)} met it at {self.at(fault.places[0])} ({fault.step})"
        yield from self.callers(fault.places[1:])
        plain = [f"{pair.name} is {pair.value}" for pair in fault.variables if "/c" not in pair.value]
        if plain and not fault.channel:
            yield INDENT + "there " + ", ".join(plain)
        if fault.closed_by:
            name = self.session.name_of(fault.channel)
            close = fault.closed_by
            yield f"{name} was closed by {step_owner(close.step)} at {self.at(close.place)} ({close.step})"
            yield from self.callers(self.session.callers(close.step))
            yield INDENT + f"'back {close.step}' takes the close back with all that depends on it"

    def waits(self, waits: Sequence[Wait]) -> Iterator[str]:
        for wait in waits[:MAX_WAITS]:
            yield from self.wait(wait)
        yield from more(len(waits) - MAX_WAITS)

    def wait(self, wait: Wait, does: str = "waits") -> Iterator[str]:
        """What a goroutine waits for, and who may still serve it."""
        place = wait.places[0] if wait.places else Place("", 0)
        program = self.session.program
        kind = program.kind_moved([it.line for it in wait.places])
        wishes = " or ".join(dict.fromkeys(wish_in_words(it, program.value(kind, it.value)) for it in wait.wishes))
        if not wait.wishes:
            yield f"{wait.goroutine} {does if 'ever' in does else does + ' for ever'} at {self.at(place)}"
            yield INDENT + "its select has no cases"
            return
        yield f"{wait.goroutine} {does} to {wishes} at {self.at(place)}"
        yield from self.callers(wait.places[1:])
        if any(wish.channel == NIL for wish in wait.wishes):
            yield INDENT + "a nil channel blocks for ever"
        told = set()
        for wish in wait.wishes:
            if wish.channel != NIL and (wish.verb, wish.channel) not in told:
                yield from self.served(wish)
            told.add((wish.verb, wish.channel))

    def served(self, wish: Wish) -> Iterator[str]:
        """Who holds what is waited for, and who may still serve it."""
        name = wish.variable or wish.channel
        for hold in wish.items[:MAX_ITEMS]:
            value = self.session.program.value(self.session.kind_of_channel(wish.channel), hold.value)
            yield INDENT + f"{self.holder(hold, wish)} put {value} into {name} at {self.at_called(hold)}"
        if len(wish.items) > MAX_ITEMS:
            yield INDENT + f"and {len(wish.items) - MAX_ITEMS} items more are in it"
        if wish.taken:
            yield INDENT + f"{self.holder(wish.taken, wish)} took the last item of {name} at {self.at_called(wish.taken)}"
        if wish.last:
            did = "the last one to receive from" if wish.verb is Verb.SEND else "the last one to send to"
            yield INDENT + f"{wish.last.goroutine} was {did} {name}, at {self.at_called(wish.last)}"
        if not wish.owners:
            yield INDENT + self.servers(wish, name)

    def servers(self, wish: Wish, name: str) -> str:
        if wish.servers:
            return f"it waits for {servers_in_words(wish.servers)}"
        if not wish.is_whole:
            return f"who may still {SERVES[wish.verb]} {name} is not told: there are too many goroutines"
        if wish.behind:
            first = "send" if wish.verb is Verb.SEND else "receive"
            return f"only {named(wish.behind)} would {SERVES[wish.verb]} {name}, after a {first} of its own that waits too"
        if wish.verb is Verb.SEND:
            return f"no other goroutine can still receive from {name}"
        if wish.is_range:
            return f"nobody will send to {name} again, and nobody closes it: the range cannot end"
        return f"no other goroutine can still send to {name} or close it"

    def holder(self, hold: Hold, wish: Wish) -> str:
        """A goroutine that used a channel, and whether it may still serve those that wait."""
        stands = {
            Stand.SELF: "%s itself",
            Stand.DONE: "%s, which is done,",
            Stand.MAY: f"%s, which may still {SERVES[wish.verb]} it,",
            Stand.NEVER: f"%s, which never will {SERVES[wish.verb]} it again,",
        }
        return stands[hold.stand] % hold.goroutine

    def at_called(self, hold: Hold) -> str:
        """The place of a step, with the one that called it where it has callers, and the command that takes it back."""
        called = ", called at " + self.at(hold.callers[0]) if hold.callers else ""
        return f"{self.at(hold.place)}{called} ('back {hold.step}' takes that back)"

    def cycle(self, names: Sequence[str]) -> Iterator[str]:
        if names:
            pairs = zip(names, [*names[1:], names[0]])
            yield f"A cycle: {', '.join(f'{one} waits for {other}' for one, other in pairs)}."

    def starved(self, one: Starved) -> Iterator[str]:
        counts = ", ".join(f"case {clause} {times(number)}" for clause, number in one.taken)
        yield f"{one.goroutine} took {counts} at the select of {self.session.program.where(one.place.line)}, and case {one.clause} never"
        yield INDENT + f"{one.waiting} waits there on {self.session.name_of(one.channel)}, since {one.since}"
        yield INDENT + f"'step {one.goroutine} {one.clause}' takes case {one.clause}, when {one.goroutine} stands at the select"

    # Places.

    def at(self, place: Place) -> str:
        if not place.line:
            return "a line that is not known"
        return self.session.program.at(place.line)

    def callers(self, places: Sequence[Place]) -> Iterator[str]:
        for place in places[:5]:
            yield INDENT + f"called from {place.function}, {self.at(place)}"


def wish_in_words(wish: Wish, shown: str = "") -> str:
    """What is waited for, by the goroutine's own name for the channel, and with its value as it is shown: `send 3 to out (g0/c1)`."""
    value = f"send {shown or wish.value} to" if wish.verb is Verb.SEND and wish.value else wish.verb.value
    if wish.channel == NIL:
        return f"{value} a nil channel"
    return f"{value} {f'{wish.variable} ({wish.channel})' if wish.variable else wish.channel}"


def servers_in_words(servers: Sequence[Server]) -> str:
    """Those that may still serve, and how: `g0.1 or g0.2, which may still send to it`."""
    verbs = {verb for server in servers for verb in server.verbs}
    does = " or ".join(SERVED[verb] for verb in (Verb.SEND, Verb.RECEIVE, Verb.CLOSE) if verb in verbs)
    return f"{named([it.goroutine for it in servers])}, which may still {does}"


def named(names: Sequence[str]) -> str:
    """Some names of goroutines: `g0.1 or g0.2`."""
    shown = list(names[:MAX_NAMES]) + ([f"{len(names) - MAX_NAMES} more"] if len(names) > MAX_NAMES else [])
    return " or ".join(shown)


def more(number: int) -> Iterator[str]:
    if number > 0:
        yield f"and {number} {'goroutine' if number == 1 else 'goroutines'} more"


def ended_in_words(number: int, leaks: int) -> str:
    """How a program ended: how many goroutines were not done, and how many of them are leaks."""
    if not number:
        return "The program has ended, and every goroutine is done."
    were = "1 goroutine was" if number == 1 else f"{number} goroutines were"
    are = "none of them is a leak" if not leaks else "1 is a leak" if leaks == 1 else f"{leaks} are leaks"
    return f"The program has ended. {were} not done when main returned, and {are}."


def times(number: int) -> str:
    return "once" if number == 1 else f"{number} times"


def ready_in_words(names: Sequence[str]) -> str:
    shown = ", ".join(names[:8]) + (", .." if len(names) > 8 else "")
    return f"{shown} {'is' if len(names) == 1 else 'are'} ready"
