"""Who waits for whom: what each goroutine waits for, who may still serve it, and the cycle where there is one."""
from __future__ import annotations

from collections.abc import Sequence
from dataclasses import dataclass, field, replace
from enum import Enum
from typing import NamedTuple, Optional

from .facts import Place, Verb
from .names import step_owner
from .replies import Channel, Goroutine, State
from .roles import Roles
from .session import Session
from .transfers import Transfers

NIL = "nil"
SERVED_BY = {Verb.SEND: frozenset((Verb.RECEIVE,)), Verb.RECEIVE: frozenset((Verb.SEND, Verb.CLOSE))}
MOST_ITEMS = 64


class Server(NamedTuple):
    """A goroutine that may still do the other half, and by what."""

    goroutine: str
    verbs: frozenset[Verb]


class Stand(Enum):
    """What became of a goroutine that took a lock, or used a channel last."""

    SELF = "it waits itself"
    DONE = "it is done"
    MAY = "it may still do the other half"
    NEVER = "it never does the other half again"


@dataclass(frozen=True)
class Hold:
    """A step by which a goroutine put an item into a buffer, or took one out of it; `value` is that of an item that is there."""

    step: str
    place: Place
    callers: tuple[Place, ...]
    stand: Stand
    value: str = ""

    @property
    def goroutine(self) -> str:
        return step_owner(self.step)


@dataclass(frozen=True)
class Wish:
    """What a goroutine waits for: `channel` is NIL where nobody can serve it; `value` is what it sends.

    `variable` is its own name for the channel. Of a full buffer `items` are the steps that put the items in, as far as they are known,
    of an empty one `taken` is the step that took the last one. `last` is the last message of a channel that nobody serves any more.
    """

    verb: Verb
    channel: str
    clause: int = 0
    value: str = ""
    variable: str = ""
    capacity: int = 0
    is_range: bool = False
    servers: tuple[Server, ...] = ()
    # Goroutines that would serve it only behind the same wish of their own.
    behind: tuple[str, ...] = ()
    # Whether all goroutines and channels were looked at.
    is_whole: bool = True
    items: tuple[Hold, ...] = ()
    taken: Optional[Hold] = None
    last: Optional[Hold] = None

    @property
    def owners(self) -> tuple[str, ...]:
        """Those that hold a lock and may still give it back."""
        held = self.items or ((self.taken,) if self.taken and self.capacity == 1 else ())
        return tuple(dict.fromkeys(it.goroutine for it in held if it.stand is Stand.MAY))

    @property
    def waits_for(self) -> tuple[str, ...]:
        return self.owners or tuple(it.goroutine for it in self.servers)


@dataclass(frozen=True)
class Wait:
    """A goroutine that waits, the places of its frames, and the step that began the wait. A select without cases has no wish."""

    goroutine: str
    places: tuple[Place, ...]
    since: str
    wishes: tuple[Wish, ...]

    @property
    def waits_for(self) -> tuple[str, ...]:
        """The goroutines for which it waits: those that hold a lock, else all that may serve it."""
        return tuple(dict.fromkeys(name for wish in self.wishes for name in wish.waits_for))

    @property
    def helpers(self) -> tuple[str, ...]:
        """All goroutines that may serve it, also beside those that hold a lock."""
        return tuple(dict.fromkeys(server.goroutine for wish in self.wishes for server in wish.servers))


@dataclass
class Waits:
    """Finds the waits of a session as it stands."""

    session: Session
    goroutines: list[Goroutine] = field(init=False)
    channels: dict[str, Channel] = field(init=False)

    def __post_init__(self) -> None:
        self.goroutines = [it for it in self.session.goroutines() if it.state is not State.DONE]
        self.channels = {it.name: it for it in self.session.channels()}
        self.names = {it.name for it in self.goroutines}
        self.able: dict[tuple[Verb, str], tuple[Server, ...]] = {}
        self.same: dict[tuple[Verb, str], set[str]] = {}
        self.is_whole = self.session.roster.is_whole()

    def all(self) -> list[Wait]:
        """The waits of all goroutines, in the order of their names."""
        waiting = [it for it in self.goroutines if it.state is State.WAITING]
        if not waiting:
            return []
        places = {it.name: tuple(self.session.places(it)) for it in self.goroutines}
        queued = self.queued()
        self.wishes = {it.name: self.wishes_of(it, queued.get(it.name, [])) for it in waiting}
        for name, wishes in self.wishes.items():
            if len({(wish.verb, wish.channel) for wish in wishes}) == 1:
                self.same.setdefault((wishes[0].verb, wishes[0].channel), set()).add(name)
        self.roles = Roles(self.session.program, self.goroutines, list(places.values()), list(self.channels.values()))
        wished = dict.fromkeys(it.channel for of in self.wishes.values() for it in of if it.channel != NIL)
        self.transfers = Transfers(self.session.noted() if wished else [], list(wished))
        return [
            Wait(it.name, places[it.name], it.last_step, tuple(self.served(it.name, wish) for wish in self.wishes[it.name]))
            for it in waiting
        ]

    # What is wished.

    def queued(self) -> dict[str, list[Wish]]:
        """What each goroutine waits for, by the queues of the channels."""
        found: dict[str, list[Wish]] = {}
        for channel in self.channels.values():
            for verb, queue in ((Verb.SEND, channel.senders), (Verb.RECEIVE, channel.receivers)):
                for it in queue:
                    wish = Wish(verb, channel.name, it.clause, it.value, capacity=channel.capacity, is_whole=self.is_whole)
                    found.setdefault(it.goroutine, []).append(wish)
        return found

    def wishes_of(self, one: Goroutine, queued: Sequence[Wish]) -> list[Wish]:
        """What a goroutine waits for. One that is in no queue waits at a nil channel, or at a select without cases."""
        found = [self.named(one, wish) for wish in queued]
        return sorted(found, key=lambda wish: wish.clause) or self.nil_wishes(one)

    def named(self, one: Goroutine, wish: Wish) -> Wish:
        """A wish with the goroutine's own name for the channel: that of its statement, else that of a frame, the innermost first."""
        used = [it for it in self.uses_at(one) if it[0] is wish.verb]
        holding = [variable.name for frame in one.frames for variable in frame.variables if variable.value == wish.channel]
        written = [name for _, name, _ in used if name in holding]
        is_range = any(ranges and name in ("", *holding) for _, name, ranges in used)
        return replace(wish, variable=(written or holding or [""])[0], is_range=is_range and not wish.clause)

    def uses_at(self, one: Goroutine) -> list[tuple[Verb, str, bool]]:
        """The uses of channels on the line of a goroutine: what is done, the variable, and whether it is a range."""
        uses = self.session.program.uses(one.frames[0].function, one.line) if one.frames else []
        return [(it.verb, it.channel.name if it.channel else "", it.is_range) for it in uses]

    def nil_wishes(self, one: Goroutine) -> list[Wish]:
        """The wishes of a goroutine in no queue: at nil channels, or none at a select without cases."""
        uses = self.uses_at(one)
        return [Wish(verb, NIL) for verb in dict.fromkeys(verb for verb, _, _ in uses if verb in SERVED_BY)]

    # Who serves it.

    def served(self, waiting: str, wish: Wish) -> Wish:
        """A wish with those that may still serve it, and the steps that left it unserved."""
        if wish.channel == NIL:
            return wish
        items, taken = self.items(waiting, wish), self.taken(waiting, wish)
        owners = {it.goroutine for it in (*items, *((taken,) if taken else ()))}
        later = self.same.get((wish.verb, wish.channel), set()) - owners
        able = self.able_to(wish)
        behind = tuple(it.goroutine for it in able if it.goroutine in later and it.goroutine != waiting)
        servers = tuple(it for it in able if it.goroutine not in later and it.goroutine != waiting) if able else ()
        last = None if servers or behind or wish.capacity else self.last(waiting, wish)
        return replace(wish, servers=servers, behind=behind, items=items, taken=taken, last=last)

    def verbs(self, name: str, wish: Wish) -> frozenset[Verb]:
        return self.roles.verbs(name, wish.channel) & SERVED_BY[wish.verb]

    def able_to(self, wish: Wish) -> tuple[Server, ...]:
        """All goroutines that may do the other half of a wish, as the text ahead of them tells it."""
        key = (wish.verb, wish.channel)
        if key not in self.able:
            found = (Server(it.name, self.verbs(it.name, wish)) for it in self.goroutines)
            self.able[key] = tuple(it for it in found if it.verbs)
        return self.able[key]

    def items(self, waiting: str, wish: Wish) -> tuple[Hold, ...]:
        """The steps that put the items into a full buffer: the last ones that put any, since the first item goes out first."""
        items = self.channels[wish.channel].items
        if wish.verb is not Verb.SEND or not items or len(items) > MOST_ITEMS:
            return ()
        put = self.transfers.put[wish.channel][-len(items) :]
        holds = [self.hold(waiting, wish, step, value) for step, value in zip(put, items[-len(put) :])] if put else []
        return tuple(it for it in holds if it)

    def taken(self, waiting: str, wish: Wish) -> Optional[Hold]:
        """The step that took the last item out of an empty buffer."""
        taken = self.transfers.taken[wish.channel]
        return self.hold(waiting, wish, taken[-1]) if wish.verb is Verb.RECEIVE and wish.capacity and taken else None

    def last(self, waiting: str, wish: Wish) -> Optional[Hold]:
        """The last step that did the other half."""
        done = (self.transfers.taken if wish.verb is Verb.SEND else self.transfers.sent)[wish.channel]
        return self.hold(waiting, wish, done[-1]) if done else None

    def hold(self, waiting: str, wish: Wish, step: str, value: str = "") -> Optional[Hold]:
        fact = self.session.facts.of(step)
        if fact is None:
            return None
        return Hold(step, fact.place, self.session.callers(step), self.stand(waiting, wish, step_owner(step)), value)

    def stand(self, waiting: str, wish: Wish, name: str) -> Stand:
        if name == waiting:
            return Stand.SELF
        if name not in self.names:
            return Stand.DONE
        return Stand.MAY if self.verbs(name, wish) else Stand.NEVER


def cycle_among(waits: Sequence[Wait]) -> list[str]:
    """The fewest goroutines of which each waits for the next one, and the last one for the first; none where there is no cycle.

    A cycle from which a way leads to a goroutine that does not wait may still come loose, and is none.
    """
    edges = {wait.goroutine: wait.waits_for for wait in waits}
    helpers = {wait.goroutine: wait.helpers for wait in waits}
    best: list[str] = []
    for start in edges:
        path = path_back(start, edges) if not comes_loose(start, helpers) else []
        if path and (not best or len(path) < len(best)):
            best = path
    return best


def comes_loose(start: str, helpers: dict[str, tuple[str, ...]]) -> bool:
    """Whether one that waits may be served by way of a goroutine that does not wait."""
    reached, ahead = {start}, [start]
    while ahead:
        name = ahead.pop()
        if name not in helpers:
            return True
        ahead += [it for it in helpers[name] if it not in reached]
        reached.update(helpers[name])
    return False


def path_back(start: str, edges: dict[str, tuple[str, ...]]) -> list[str]:
    """The shortest way from a goroutine over those it waits for back to itself."""
    ways = [[start]]
    seen = {start}
    while ways:
        longer = []
        for way in ways:
            for name in edges.get(way[-1], ()):
                if name == start:
                    return way
                if name not in seen:
                    seen.add(name)
                    longer.append(way + [name])
        ways = longer
    return []
