"""What single steps did, in words, and who is where."""
from __future__ import annotations

from .direct import Edge, EdgeKind
from .facts import Fact, Verb
from .meanings import FAULTS
from .names import step_number, step_of
from .replies import Channel, Goroutine, KindWord, State, Waiter
from .session import Session


class Stories:
    """Tells steps, goroutines and channels of a session as it stands."""

    def __init__(self, session: Session) -> None:
        self.session = session

    def step(self, fact: Fact) -> str:
        """What a step did; an empty text where it touched its own goroutine alone."""
        word = fact.kind.word
        plain = {
            KindWord.RETURN: f"leaves {fact.place.function}",
            KindWord.EXIT: "ends the program",
            KindWord.GO: "starts " + " and ".join(fact.reached),
            KindWord.MAKE: f"makes {self.name(fact.made)}" if fact.made else "",
            KindWord.DEFAULT: "takes the default case",
            KindWord.SELECT_WAIT: "waits on all cases",
            KindWord.FAULT: FAULTS.get(fact.kind.fault, fact.kind.fault),
        }
        if word in plain:
            return plain[word]
        return self.use(fact)

    def use(self, fact: Fact) -> str:
        """A step that used a channel."""
        name, value = self.name(fact.channel), self.session.value_of(fact)
        partner = " or ".join(fact.reached)
        clause = f"case {fact.kind.clause}: " if fact.kind.clause else ""
        if fact.verb is Verb.CLOSE:
            return f"closes {name}{', and wakes ' + partner if partner else ''}"
        if fact.verb is Verb.LENGTH:
            return f"takes the length of {name}"
        if fact.kind.waits:
            return self.wait(fact, name)
        if fact.verb is Verb.SEND:
            return f"{clause}sends {value or 'a value'} to {name}{', to ' + partner if partner else ''}"
        if fact.verb is Verb.RECEIVE and fact.kind.word is KindWord.CLOSED:
            return f"finds {name} closed and empty"
        if fact.verb is Verb.RECEIVE:
            source = ", of " + partner if partner and fact.kind.word is not KindWord.TAKE else ""
            return f"{clause}receives {value or 'a value'} from {name}{source}"
        return clause.rstrip(": ")

    def wait(self, fact: Fact, name: str) -> str:
        """A step that began to wait, and what ended the wait."""
        verb = Verb.SEND if fact.kind.word is KindWord.SEND_WAIT else Verb.RECEIVE
        sent = self.session.value_of(fact) if verb is Verb.SEND else ""
        wish = f"send {sent} to" if sent else verb.value
        waker = self.session.facts.waker(fact.step)
        by = self.session.facts.of(waker) if waker and fact.verb is Verb.RECEIVE else None
        value = self.session.value_of(by) if by else ""
        until = f", until {waker}{' with ' + value if value else ''}" if waker else ""
        return f"waits to {wish} {name}{until}"

    def name(self, channel: str) -> str:
        return self.session.variable_of(channel) or channel if channel else "a channel"

    def goroutine(self, goroutine: Goroutine) -> str:
        """Where a goroutine stands: `waiting at line 4 of lock: <-m`."""
        if goroutine.state is State.DONE:
            return "done"
        function = goroutine.frames[0].function if goroutine.frames else "?"
        state = goroutine.state.value
        program = self.session.program
        return f"{state} at {program.where(goroutine.line)} of {function}: {program.line(goroutine.line)}"

    def channel(self, channel: Channel) -> str:
        """A channel and its queues: `open, 1 of 2 items: 3; g0.1 waits to send 4`."""
        parts = ["open" if channel.is_open else "closed"]
        kind, program = self.session.kind_of_channel(channel.name), self.session.program
        if channel.capacity:
            shown = " ".join(program.value(kind, it) for it in channel.items[:20])
            items = f": {shown}{' ..' if len(channel.items) > 20 else ''}" if channel.items else ""
            parts.append(f"{len(channel.items)} of {channel.capacity} items{items}")
        else:
            parts.append("no buffer")
        senders = [waiter_in_words(it, f"send {program.value(kind, it.value)}") for it in channel.senders[:10]]
        receivers = [waiter_in_words(it, "receive") for it in channel.receivers[:10]]
        return "; ".join([", ".join(parts), *senders, *receivers])

    def variable(self, function: str, name: str, value: str) -> str:
        """The value of a variable of a function, as its text where it stands for one."""
        program = self.session.program
        return self.value(program.value(program.kind_of(function, name), value))

    def value(self, value: str) -> str:
        """A value, with a variable's name where it is a channel."""
        variable = self.session.variable_of(value) if "/c" in value else ""
        return f"{variable} ({value})" if variable else value


def waiter_in_words(waiter: Waiter, wish: str) -> str:
    clause = f" (case {waiter.clause})" if waiter.clause else ""
    return f"{waiter.goroutine} waits to {wish}{clause}"


def relation(edge: Edge, step: Fact) -> str:
    """What a direct cause was to a step, in words."""
    source = edge.source
    if edge.kind is EdgeKind.WAIT:
        return "which ended the wait of " + step_of(step.owner, step_number(step.step) - 1)
    if edge.kind is not EdgeKind.ORDER or source.channel != step.channel or not source.channel:
        return f"which {edge.kind.value}"
    if step.verb is Verb.RECEIVE and step.kind.waits and source.receives():
        return "which took the last value before it"
    if step.verb is Verb.SEND and step.kind.waits and source.sends():
        return "which filled the buffer before it"
    if source.kind.waits:
        return "which was in the queue of the channel before it"
    return "which used the channel before it"
