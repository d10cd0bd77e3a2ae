"""What would become of the goroutines that are not done at the end of `main`, if it waited for them.

The exit is taken back in a session of its own, and the others go on as far as they can. Only one that waits for ever is a leak.
"""
from __future__ import annotations

from collections import Counter
from collections.abc import Callable, Sequence
from dataclasses import dataclass
from enum import Enum

from . import replies
from .core import Core, step_words
from .names import child_of, name_order, step_owner
from .facts import Place
from .replies import Entry, KindWord, State
from .session import Session
from .waits import Wait, Waits

# Steps that the other goroutines get, and how many one gets before the next one.
DRAIN = 2000
DRAIN_PORTION = 8


class Ending(Enum):
    """What a goroutine would do."""

    END = "it would end"
    WAIT = "it would wait for ever"
    GO_ON = "it would still go on"
    FAULT = "it would stop the program"


@dataclass(frozen=True)
class Fate:
    """What would become of a goroutine, the fault that it would meet, and where."""

    goroutine: str
    ending: Ending
    place: Place = Place("", 0)
    fault: str = ""


def drained(names: Callable[[], Sequence[str]], take: Callable[[list[str]], Sequence[Entry]]) -> int:
    """Lets goroutines go on until none is ready, one stops the program, or many steps are taken: how many were.

    `names` are the goroutines that may go on, and `take` takes steps, some of which may be refused.
    """
    taken = 0
    while taken < DRAIN:
        entries = take([step_words(name) for name in names() for _ in range(DRAIN_PORTION)])
        taken += len(entries)
        if not entries or entries[-1].kind.stops:
            break
    return taken


class Rest:
    """A session in which the goroutines of an ended one have gone on."""

    def __init__(self, session: Session, core: Core) -> None:
        """`core` stands where the session does, and its last step, the exit, is taken back."""
        self.session = Session(core, session.program, session.begin)
        core.undo()
        self.names, self.children = ["g0"], Counter[str]()
        self.note_started(session.log())
        self.first = [it.name for it in session.goroutines() if it.state is not State.DONE and it.name != "g0"]
        self.done = {*self.names} - {*self.first}
        self.session.forget()

    def take(self, commands: list[str]) -> list[Entry]:
        """Takes steps, some of which may be refused."""
        taken = []
        for command, reply in zip(commands, self.session.core.ask_all(commands)):
            if reply.is_ok:
                taken.append(replies.stepped(reply))
            elif reply.code == "N4":
                self.done.add(command.split(" ")[1])
        self.note_started(taken)
        self.session.forget()
        return taken

    def note_started(self, entries: Sequence[Entry]) -> None:
        """Notes the goroutines that some steps started, in the order of their starts."""
        for entry in entries:
            if entry.kind.word is KindWord.GO:
                owner = step_owner(entry.step)
                self.children[owner] += 1
                self.names.append(child_of(owner, self.children[owner]))

    def fates(self) -> tuple[list[Fate], list[Wait]]:
        """What would become of each goroutine, and what those wait for that would wait for ever."""
        drained(lambda: [it for it in self.names if it not in self.done], self.take)
        last = self.session.entry(-1)
        if last.kind.stops:
            owner = self.session.goroutine(step_owner(last.step))
            places = tuple(self.session.places(owner)) if owner else ()
            return [Fate(step_owner(last.step), Ending.FAULT, places[0] if places else Place("", 0), last.kind.fault)], []
        endings = {State.WAITING: Ending.WAIT, State.READY: Ending.GO_ON}
        open_ones = [it for it in self.session.goroutines() if it.state is not State.DONE and it.name != "g0"]
        kept = {it.name: Fate(it.name, endings[it.state], self.session.places(it)[0]) for it in open_ones}
        names = sorted({*self.first, *kept}, key=name_order)
        fates = [kept.get(name) or Fate(name, Ending.END) for name in names]
        return fates, [it for it in Waits(self.session).all() if it.goroutine != "g0"]


def fates_of(session: Session) -> tuple[list[Fate], list[Wait]]:
    """What would become of the goroutines of a program that has ended, and the waits of those that would wait for ever."""
    if all(it.state is State.DONE or it.name == "g0" for it in session.goroutines()):
        return [], []
    with session.copied() as core:
        return Rest(session, core).fates()
