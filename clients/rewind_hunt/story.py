"""A script told step by step: the command, what the step does, and its line."""
from __future__ import annotations

from collections.abc import Callable, Sequence
from typing import NamedTuple, Optional

from rewind_client.core import Core
from rewind_client.facts import Fact, Verb
from rewind_client.meanings import FAULTS
from rewind_client.names import step_number, step_of
from rewind_client.program import Program
from rewind_client.replies import KindWord
from rewind_client.session import Session

from .scripts import Script

# Steps that only go on: some of them after each other in one goroutine are told together.
PLAIN = frozenset((KindWord.PURE, KindWord.CALL, KindWord.RETURN))


class Told(NamedTuple):
    """What one step does, or some plain ones after each other: the commands, their number, a sentence and the first line."""

    command: str
    times: int
    sentence: str
    line: int
    step: str


class Story:
    """Tells scripts of a program."""

    def __init__(self, begin: Callable[[], Core], program: Program) -> None:
        self.begin = begin
        self.program = program

    def told(self, script: Script) -> list[Told]:
        """What each step does."""
        session = Session(self.begin(), self.program, self.begin)
        try:
            session.core.ask_all(list(script.commands))
            session.forget()
            facts = session.noted()
            session.values.learn(facts)
            return grouped(self.one_by_one(session, script, facts))
        finally:
            session.end()

    def one_by_one(self, session: Session, script: Script, facts: Sequence[Fact]) -> list[Told]:
        by_turns = len(facts) - (len(script.commands) - 1) if script.commands[0].startswith("run ") else 0
        commands = [script.commands[0]] * by_turns + list(script.commands[1 if by_turns else 0 :])
        sentences = Sentences(session)
        return [Told(command, 1, sentences.of(fact), fact.line, fact.step) for command, fact in zip(commands, facts)]


class Sentences:
    """A sentence for each step."""

    def __init__(self, session: Session) -> None:
        self.session = session

    def of(self, fact: Fact) -> str:
        """What a step does, with its goroutine as the subject."""
        tells: dict[KindWord, Callable[[Fact], str]] = {
            KindWord.PURE: self.pure, KindWord.CALL: self.call, KindWord.RETURN: lambda it: "returns from " + it.place.function,
            KindWord.EXIT: lambda _: "returns from main, which ends the program", KindWord.GO: self.go, KindWord.MAKE: self.make,
            KindWord.LENGTH: lambda it: "takes the length of " + self.channel(it), KindWord.HAND: self.hand,
            KindWord.MEET: self.meet, KindWord.BUFFER: lambda it: f"puts {self.value(it)} into {self.channel(it)}",
            KindWord.TAKE: lambda it: f"takes {self.value(it)} out of {self.channel(it)}",
            KindWord.CLOSED: lambda it: f"finds {self.channel(it)} closed and empty",
            KindWord.SEND_WAIT: lambda it: f"waits to send {self.value(it)} to {self.channel(it)}",
            KindWord.RECEIVE_WAIT: lambda it: "waits to receive from " + self.channel(it),
            KindWord.PICK: self.pick, KindWord.DEFAULT: lambda _: "takes the default of a select, since no case is ready",
            KindWord.SELECT_WAIT: lambda _: "waits at a select", KindWord.CLOSE: lambda it: "closes " + self.channel(it),
            KindWord.FAULT: self.fault,
        }  # fmt: skip
        return f"{fact.owner} {tells[fact.kind.word](fact)}"

    def channel(self, fact: Fact) -> str:
        return self.session.name_of(fact.channel) if fact.channel else "a channel"

    def value(self, fact: Fact) -> str:
        value = self.session.value_of(fact)
        return {"": "a value", "{}": "a token"}.get(value, value)

    def partner(self, fact: Fact) -> str:
        return next(iter(fact.reached), "another goroutine")

    def pure(self, fact: Fact) -> str:
        return "prints: " + self.session.values.line(fact) if fact.prints else "goes on"

    def call(self, fact: Fact) -> str:
        after = self.session.facts.of(step_of(fact.owner, step_number(fact.step) + 1))
        return "calls " + after.place.function if after else "calls a function"

    def go(self, fact: Fact) -> str:
        child = " and ".join(fact.reached)
        return f"starts {child}{self.began(fact, child)}"

    def began(self, fact: Fact, child: str) -> str:
        """The function of a goroutine that a step started."""
        shown = self.session.shown_at(self.session.place(fact.step), child)
        return f" ({shown.frames[0].function})" if shown and shown.frames else ""

    def make(self, fact: Fact) -> str:
        return "makes " + self.session.name_of(fact.made)

    def hand(self, fact: Fact) -> str:
        return f"hands {self.value(fact)} to {self.partner(fact)}, which waits at {self.channel(fact)}"

    def meet(self, fact: Fact) -> str:
        return f"takes {self.value(fact)} from {self.partner(fact)}, which waits at {self.channel(fact)}"

    def pick(self, fact: Fact) -> str:
        verb = {Verb.SEND: "sends %s to", Verb.RECEIVE: "receives %s from"}.get(fact.verb or Verb.LENGTH)
        does = " and " + verb % self.value(fact) + " " + self.channel(fact) if verb else ""
        return f"takes case {fact.kind.clause} of a select{does}"

    def fault(self, fact: Fact) -> str:
        why = FAULTS.get(fact.kind.fault, fact.kind.fault)
        return f"stops with {why} ({fact.kind.fault}){' at ' + self.channel(fact) if fact.channel else ''}"


def grouped(told: Sequence[Told]) -> list[Told]:
    """The same with plain steps of one goroutine after each other told together."""
    found: list[Told] = []
    for one in told:
        before: Optional[Told] = found[-1] if found else None
        if before and before.command == one.command and before.sentence == one.sentence and one.sentence.endswith(" goes on"):
            found[-1] = before._replace(times=before.times + 1)
        else:
            found.append(one)
    return found
