"""A program under the debugger: its goroutines, channels, frames and steps, kept up to date.

What is asked of Rewind is kept until a step may have changed it.
"""
from __future__ import annotations

from collections.abc import Callable, Iterator, Sequence
from contextlib import contextmanager
from typing import Optional, TypeVar

from . import replies
from .core import QUERIES, Core, Refused, end_of_step, first_word, step_words
from .errors import ProcessError
from .facts import Fact, Facts, Place
from .mirror import Mirror, taken_again
from .moved import Values
from .names import is_step, step_number, step_of, step_owner
from .program import Program
from .replies import NO_COMMAND, Channel, Entry, Goroutine, KindWord, Ran, Reason, Reply, State
from .roster import Roster
from .source import Source
from .variables import ChannelNames

# Of a longer log only so many steps are looked at, from the end, for what they did.
NOTED = 20_000
# A log is asked for as a whole only where it is no longer.
LONG_LOG = 100_000
# A log that is known to its end goes on with the facts of so small a part of its steps; else it is asked for as a whole.
PART = 20
# After a step of such a kind only its own goroutine stands elsewhere.
OWN = frozenset((KindWord.PURE, KindWord.CALL, KindWord.LENGTH))

Found = TypeVar("Found")


class Session:
    """All that is known of a program as it stands."""

    def __init__(self, core: Core, program: Program, begin: Callable[[], Core], source: Optional[Source] = None) -> None:
        """`begin` starts another session of the program; `source` tells whether its file has changed."""
        self.core = core
        self.program = program
        self.begin = begin
        self.source = source
        self.facts = Facts(self.queried, self.length)
        self.values = Values(self.queried, self.place, self.copied)
        self.roster = Roster(self)
        self.mirror: Optional[Mirror] = Mirror(begin) if core.has_workers else None
        # The first steps of the log, or all of them.
        self.known_log: list[Entry] = []
        self.is_kept_known = True
        self.is_end_known = True
        # Whether the commands given to the core lead to where it stands.
        self.is_whole = not core.has_workers
        self.version: int = 0
        self.taken_back: dict[str, Entry] = {}
        # The commands from the start to the bad end that a search has found.
        self.schedule: tuple[str, ...] = ()
        self.forget_states()
        self.variables = ChannelNames(self)
        self.calls: Optional[dict[str, list[Entry]]] = None
        self.places_in_log: dict[str, int] = {}
        self.placed = -1

    def end(self) -> None:
        """Ends the session."""
        self.core.process.end()
        if self.mirror:
            self.mirror.end()

    # Commands.

    def ask(self, command: str) -> Reply:
        """The answer to any command, with what it changes taken account of. A query is none: it is not for users."""
        if first_word(command) in QUERIES:
            return Reply({}, NO_COMMAND + "\n")
        changes, before = self.core.changes, self.core.kept
        try:
            reply = self.core.ask(command)
        except ProcessError:
            raise
        except Exception:
            self.forget()
            raise
        if self.core.changes != changes:
            self.take_account(first_word(command), reply, before)
        return reply

    def take_account(self, word: str, reply: Reply, before: int) -> None:
        """Brings what is known up to date with a command that moved; so many steps were kept before."""
        self.version += 1
        if not reply.is_ok and reply.name != "partly":
            return
        self.calls = None
        if word == "step":
            self.after_step(replies.stepped(reply), before)
            return
        self.forget_states()
        if word in ("undo", "back"):
            self.went([replies.undone(reply)] if reply.name == "undone" else replies.steps(reply), before)
        elif word == "redo" and all(it in self.taken_back for it in replies.steps(reply)):
            self.came([self.taken_back[it] for it in replies.steps(reply)], before)
        elif word == "order":
            self.forget_log()

    def came(self, entries: Sequence[Entry], before: int) -> None:
        """Steps join the log, where that is known."""
        if len(self.known_log) == before:
            self.known_log += entries

    def went(self, steps: Sequence[str], before: int) -> None:
        """Steps that were taken back, of so many that were kept."""
        gone, log = set(steps), self.known_log
        first = next((at for at, it in enumerate(log) if it.step in gone), len(log))
        self.taken_back = {it.step: it for it in log[first:] if it.step in gone}
        self.known_log = log[:first] + [it for it in log[first:] if it.step not in gone]
        self.facts.took_back(steps, before)
        self.values.took_back(steps)
        self.roster.forget()
        self.variables.forget()

    def forget_log(self) -> None:
        """Forgets in which order the steps stand."""
        self.known_log = []
        self.facts.forget_places()

    def after_step(self, entry: Entry, before: int) -> None:
        self.came([entry], before)
        if entry.kind.word in OWN:
            self.shown.pop(step_owner(entry.step), None)
        else:
            self.forget_states()

    def forget_states(self) -> None:
        self.shown: dict[str, Optional[Goroutine]] = {}
        self.channels_shown: dict[str, Optional[Channel]] = {}

    def forget(self) -> None:
        """Forgets all that was asked, where it is not known what became of a command."""
        self.version += 1
        self.forget_states()
        self.facts.forget()
        self.values.forget()
        self.roster.forget()
        self.variables.forget()
        self.known_log, self.calls = [], None
        self.is_kept_known = self.is_end_known = self.is_whole = False

    def refresh(self) -> bool:
        """Asks for the log anew, where others than the commands of this session take steps; whether it has changed."""
        before, log = list(self.known_log), self.core.log()
        if log == before:
            return False
        self.forget()
        self.keep_log(log)
        return True

    def moved(self, command: str, read: Callable[[Reply], Found]) -> Found:
        """What is read from the answer to a command that moves; Refused where it is."""
        reply = self.ask(command)
        if not reply.is_ok:
            raise self.core.parsed(command, reply, lambda told: Refused(command, told))
        return self.core.parsed(command, reply, read)

    def step(self, goroutine: str, clause: int = 0) -> Entry:
        return self.moved(step_words(goroutine, clause), replies.stepped)

    def run(self, most: int) -> Ran:
        return self.moved(f"run {most}", replies.ran)

    def undo(self) -> str:
        return self.moved("undo", replies.undone)

    def back(self, target: str) -> list[str]:
        return self.moved("back " + target, replies.steps)

    def redo(self) -> list[str]:
        return self.moved("redo", replies.steps)

    def cut(self, length: int) -> None:
        """Takes back all steps behind the first so many of the log, by few commands: each takes back all that depends on a step."""
        while self.length() > length:
            self.back(self.entry(length).step)

    def preview(self, target: str) -> list[str]:
        """The steps that `back` would take back; Refused where it would be."""
        if is_step(target):
            return self.core.asked("deps " + target, replies.steps)
        with self.copied() as core:
            return core.back(target)

    # Other sessions.

    @contextmanager
    def copied(self) -> Iterator[Core]:
        """A session that stands where this one does, for what this one is not to do."""
        core = self.begin()
        try:
            if self.is_whole:
                core.ask_all(self.core.given)
            else:
                taken_again(core, self.log())
            yield core
        finally:
            core.process.end()

    def queried(self) -> Core:
        """The session that answers queries: this one, or beside workers, of which none is asked, one that takes the same steps."""
        return self.mirror.behind(self.log()) if self.mirror else self.core

    # The log.

    def length(self) -> int:
        """How many steps are kept."""
        if not self.is_kept_known:
            self.log()
        return self.core.kept

    def log(self) -> list[Entry]:
        """The kept steps in their order."""
        known, kept = len(self.known_log), self.core.kept
        if self.is_kept_known and 0 < (kept - known) * PART <= kept and not self.mirror:
            self.known_log += [Entry(it.step, it.kind) for it in self.facts.between(known + 1, kept)]
        elif not self.is_kept_known or known != kept:
            self.keep_log(self.core.log())
        return self.known_log

    def keep_log(self, log: list[Entry]) -> None:
        self.known_log = log
        self.core.kept, self.is_kept_known = len(log), True
        if not self.is_end_known:
            self.core.end = end_of_step(log[-1]) if log else None
            self.is_end_known = True

    def entry(self, place: int) -> Entry:
        """The step at a place of the log, counted from 0; a place below 0 counts from the end."""
        number = place if place >= 0 else self.length() + place
        if self.mirror or number < len(self.known_log):
            return self.log()[number]
        fact = self.facts.between(number + 1, number + 1)[0]
        return Entry(fact.step, fact.kind)

    def place(self, step: str) -> int:
        """The place of a step in the log, counted from 1; 0 where it is not kept, or stands far back in a long log."""
        found = self.facts.place(step)
        if found or self.length() > LONG_LOG:
            return found
        if self.placed != self.version:
            self.places_in_log = {it.step: at for at, it in enumerate(self.log(), 1)}
            self.placed = self.version
        return self.places_in_log.get(step, 0)

    def stopped_by(self) -> Optional[Reason]:
        """Why the program goes no further: its end, a fault, or nothing."""
        if not self.is_end_known:
            self.log()
        return self.core.end

    def is_noted(self) -> bool:
        """Whether all kept steps are looked at for what they did."""
        return self.length() <= NOTED

    def noted(self) -> list[Fact]:
        """The facts of the kept steps in their order; of a long log those of the last ones."""
        return self.facts.tail(NOTED)

    def callers(self, step: str) -> tuple[Place, ...]:
        """The places from which the frames outside a step's own were called, the innermost first, as far as they are known."""
        return tuple(fact.place for fact in self.facts.of_all(self.open_calls(step)[::-1]))

    def open_calls(self, step: str) -> list[str]:
        """The steps that called the frames in which a step is or will be taken, in their order, as far as they are known."""
        calls: list[str] = []
        for entry in self.calls_of(step_owner(step)):
            if step_number(entry.step) >= step_number(step):
                break
            if entry.kind.word is KindWord.CALL:
                calls.append(entry.step)
            elif calls:
                calls.pop()
        return calls

    def calls_of(self, goroutine: str) -> list[Entry]:
        """The calls and returns of a goroutine, in their order; of a long log those among the last steps."""
        if self.calls is None:
            self.calls = {}
            is_long = self.length() > LONG_LOG
            entries = [Entry(it.step, it.kind) for it in self.noted()] if is_long else self.log()
            for entry in entries:
                if entry.kind.word is KindWord.CALL or entry.kind.word is KindWord.RETURN:
                    self.calls.setdefault(step_owner(entry.step), []).append(entry)
        return self.calls.get(goroutine, [])

    # Goroutines and channels.

    def goroutine_names(self) -> list[str]:
        """The goroutines in the order of their names."""
        return self.roster.goroutines()

    def channel_names(self) -> list[str]:
        """The channels by the goroutines that made them."""
        return self.roster.channels()

    def goroutine(self, name: str) -> Optional[Goroutine]:
        self.look_at([name])
        return self.shown[name]

    def shown_at(self, place: int, name: str) -> Optional[Goroutine]:
        """A goroutine behind the first so many steps of the log; none where it was not there."""
        reply = self.queried().process.ask(f"at {place} show {name}")
        return replies.goroutine(reply) if reply.is_ok else None

    def look_at(self, names: Sequence[str]) -> None:
        """Asks for goroutines that are not known as they stand."""
        wanted = [name for name in names if name not in self.shown]
        for name, reply in zip(wanted, self.core.ask_all(["show " + name for name in wanted])):
            self.shown[name] = self.core.parsed("show " + name, reply, replies.goroutine) if reply.is_ok else None

    def goroutines(self, some: Optional[Sequence[str]] = None) -> list[Goroutine]:
        """The goroutines as they stand, in the order of their names; or some of them."""
        names = self.goroutine_names() if some is None else some
        self.look_at(names)
        return [it for it in (self.shown[name] for name in names) if it is not None]

    def channel(self, name: str) -> Optional[Channel]:
        self.look_into([name])
        return self.channels_shown[name]

    def look_into(self, names: Sequence[str]) -> None:
        """Asks for channels that are not known as they stand."""
        wanted = [name for name in names if name not in self.channels_shown]
        for name, reply in zip(wanted, self.core.ask_all(["chan " + name for name in wanted])):
            self.channels_shown[name] = replies.channel(name, reply) if reply.is_ok else None

    def channels(self) -> list[Channel]:
        """The channels as they stand, by the goroutines that made them."""
        names = self.channel_names()
        self.look_into(names)
        return [it for it in (self.channels_shown[name] for name in names) if it is not None]

    def ready(self) -> list[Goroutine]:
        """The goroutines of which one could take the next step."""
        return [] if self.stopped_by() else [it for it in self.goroutines() if it.state is State.READY]

    def ready_clauses(self, goroutine: str, count: int) -> list[int]:
        """Which of the cases of a select, at which a goroutine stands, could be taken now."""
        found = []
        with self.copied() as core:
            for clause in range(1, count + 1):
                if core.ask(step_words(goroutine, clause)).is_ok:
                    found.append(clause)
                    core.undo()
        return found

    # What the source calls them, and where they stand.

    def name_of(self, channel: str) -> str:
        """A channel by its first variable and its name: `jobs (g0/c1)`."""
        variable = self.variable_of(channel)
        return f"{variable} ({channel})" if variable else channel

    def value_of(self, fact: Fact) -> str:
        """The value that a step handed over, as its text where it stands for one."""
        value = self.values.of(fact)
        return self.program.value(self.program.kind_moved(self.lines_of(fact)), value) if value else ""

    def lines_of(self, fact: Fact) -> Iterator[int]:
        """The line of a step, and those that called its frames, the innermost first."""
        yield fact.line
        yield from (place.line for place in self.callers(fact.step))

    def kind_of_channel(self, channel: str) -> str:
        """What the values of a channel stand for, as a variable tells that holds it now; else an empty text."""
        held = (
            self.program.kind_of(frame.function, variable.name)
            for goroutine in self.goroutines() for frame in goroutine.frames for variable in frame.variables if variable.value == channel
        )  # fmt: skip
        return next((kind for kind in held if kind), "")

    def variable_of(self, channel: str) -> str:
        """The variable that held a channel first, else one that holds it now."""
        return self.variables.of(channel)

    def places(self, goroutine: Goroutine) -> list[Place]:
        """The place of each frame of a goroutine, the innermost first; the line is 0 where it can't be told."""
        functions = [frame.function for frame in goroutine.frames]
        if not functions:
            return []
        told = [self.program.calling_lines(outer, inner) for inner, outer in zip(functions, functions[1:])]
        if any(len(lines) != 1 for lines in told):
            callers = self.callers(step_of(goroutine.name, goroutine.steps + 1))
            if len(callers) == len(told):
                return [Place(functions[0], goroutine.line), *callers]
        outer_lines = [lines[0] if len(lines) == 1 else 0 for lines in told]
        return [Place(*pair) for pair in zip(functions, [goroutine.line, *outer_lines])]
