"""The commands of Rewind as calls, with their replies as values."""
from __future__ import annotations

import re
from collections.abc import Callable, Sequence
from typing import Optional, TypeVar

from . import replies
from .errors import RewindError
from .meanings import meaning_of_refusal
from .process import JSON, Process
from .replies import Channel, Entry, Goroutine, KindWord, Ran, Reason, Reply

# Commands that take steps or take them back, and all that change what a session does.
MOVING = frozenset(("step", "run", "undo", "back", "redo", "order"))
CHANGING = MOVING | frozenset(("break", "clear", "free"))
# What only a client asks, and no user.
QUERIES = frozenset(("about", "at"))

# Blanks among the control characters, and characters that are not seen: a zero-width space, a byte order mark.
CONTROL_BLANKS = re.compile("[\x0b\x0c\x1c-\x1f]")
INVISIBLE = frozenset("\u200b\ufeff")

END_OF_KIND = {KindWord.EXIT: Reason.ENDED, KindWord.FAULT: Reason.FAULT}

Found = TypeVar("Found")


class Refused(RewindError):
    """A command was refused; the text says why, and `taken` names the steps that were done none the less."""

    def __init__(self, command: str, reply: Reply) -> None:
        super().__init__(meaning_of_refusal(reply.last))
        self.command = command
        self.reply = reply
        self.code = reply.code
        self.taken = replies.steps_done(reply)


def unnoted(_command: str) -> None:
    """Keeps no account of a command."""


class Core:
    """A program under `rewind`.

    `changes` counts the commands that may have changed the state, `given` are those that changed the session, `kept` is the number
    of kept steps, and `end` the reason why the program goes no further.
    """

    def __init__(self, process: Process, journal: Callable[[str], None] = unnoted) -> None:
        """`journal` is told each command before it is asked."""
        self.process = process
        self.journal = journal
        self.changes = 0
        self.given: list[str] = []
        self.kept = 0
        self.end: Optional[Reason] = None
        self.end_taken_back: Optional[Reason] = None

    @property
    def has_workers(self) -> bool:
        """Whether others take steps too: then the plain program is asked, which answers no query."""
        return self.process.manner is not JSON

    def ask(self, command: str) -> Reply:
        """The answer to any command, whatever it says."""
        return self.ask_all([command])[0]

    def ask_all(self, commands: Sequence[str]) -> list[Reply]:
        """The answers to commands, asked in one go."""
        for command in commands:
            if "\n" in command or not words_of(command):
                raise RewindError("a command is one line that holds a word")
        for command in commands:
            self.journal(command)
            word = first_word(command)
            if word in CHANGING:
                self.given.append(command)
                self.changes += word in MOVING
        found = self.process.ask_all(commands)
        for command, reply in zip(commands, found):
            self.note(command, reply)
        return found

    def note(self, command: str, reply: Reply) -> None:
        """Keeps account of how a command moved the program."""
        word = first_word(command)
        if word in MOVING:
            self.parsed(command, reply, lambda told: self.take_account(word, told))

    def take_account(self, word: str, reply: Reply) -> None:
        """Keeps account of whether the log ends in a step that stopped the program, and whether `redo` would take one."""
        done, number = reply.is_ok, steps_taken(reply)
        self.kept += -number if word in ("undo", "back") else number
        if word == "step" and done:
            self.end, self.end_taken_back = end_of_step(replies.stepped(reply)), None
        elif word == "run" and done and number:
            self.end, self.end_taken_back = end_of_run(replies.ran(reply)), None
        elif word in ("undo", "back") and number:
            self.end_taken_back, self.end = self.end, None
        elif word == "redo" and done:
            self.end, self.end_taken_back = self.end_taken_back, None
        elif word == "order" and done:
            self.end_taken_back = None

    def parsed(self, command: str, reply: Reply, read: Callable[[Reply], Found]) -> Found:
        """What is read from an answer, where it has the form that the command's answers have; else the process ends."""
        try:
            return read(reply)
        except (LookupError, TypeError, ValueError):
            raise self.process.malformed(command, reply.last) from None

    def asked(self, command: str, read: Callable[[Reply], Found]) -> Found:
        """What is read from the answer to a command; Refused where the command is."""
        reply = self.ask(command)
        if not reply.is_ok:
            raise self.parsed(command, reply, lambda told: Refused(command, told))
        return self.parsed(command, reply, read)

    # What takes steps, or takes them back.

    def step(self, goroutine: str, clause: int = 0) -> Entry:
        """Takes a step of the goroutine: its name and its kind. A case of a select may be chosen."""
        return self.asked(step_words(goroutine, clause), replies.stepped)

    def run(self, most: int) -> Ran:
        """Takes steps, round robin."""
        return self.asked(f"run {most}", replies.ran)

    def undo(self) -> str:
        """Takes the last step back: its name."""
        return self.asked("undo", replies.undone)

    def back(self, target: str) -> list[str]:
        """Takes a step back with all that depends on it: their names in log order."""
        return self.asked("back " + target, replies.steps)

    def redo(self) -> list[str]:
        """Takes the steps again that were taken back last: their names in their order."""
        return self.asked("redo", replies.steps)

    def order(self, names: Sequence[str]) -> None:
        """Puts the kept steps into another order."""
        self.asked("order " + " ".join(names), lambda reply: None)

    def set_breakpoint(self, line: int) -> None:
        self.asked(f"break {line}", lambda reply: None)

    def clear_breakpoint(self, line: int) -> None:
        self.asked(f"clear {line}", lambda reply: None)

    # What only asks.

    def show(self, goroutine: str) -> Optional[Goroutine]:
        """The goroutine, or None where there is none of that name."""
        return self.known("show " + goroutine, replies.goroutine)

    def channel(self, name: str) -> Optional[Channel]:
        """The channel, or None where there is none of that name."""
        return self.known("chan " + name, lambda reply: replies.channel(name, reply))

    def known(self, command: str, read: Callable[[Reply], Found]) -> Optional[Found]:
        try:
            return self.asked(command, read)
        except Refused as refusal:
            if refusal.code == "N2":
                return None
            raise

    def text(self, goroutine: str) -> list[str]:
        """The lines that a goroutine printed; none where there is no such goroutine."""
        return self.known("text " + goroutine, replies.lines_within) or []

    def console(self) -> list[str]:
        """All lines that were printed, in the order of their steps."""
        return self.asked("console", replies.lines_within)

    def log(self) -> list[Entry]:
        """The kept steps in their order."""
        return self.asked("log", replies.log)

    def causes(self, step: str) -> list[str]:
        """The steps that a step depends on, itself included."""
        return self.asked("causes " + step, replies.steps)

    def dependents(self, step: str) -> list[str]:
        """The steps that depend on a step, itself included."""
        return self.asked("deps " + step, replies.steps)


def with_plain_blanks(line: str) -> str:
    """A line with a space for each blank of any alphabet, as pasted text has them; Rewind knows spaces, tabs and carriage returns."""
    if line.isascii() and not CONTROL_BLANKS.search(line):
        return line
    return "".join(" " if one.isspace() or one in INVISIBLE else one for one in line)


def words_of(command: str) -> list[str]:
    """The words of a command, as Rewind tells them apart."""
    return [word for word in command.replace("\t", " ").replace("\r", " ").split(" ") if word]


def first_word(command: str) -> str:
    words = command.replace("\t", " ").replace("\r", " ").lstrip(" ").split(" ", 1)
    return words[0]


def step_words(goroutine: str, clause: int = 0) -> str:
    return f"step {goroutine} {clause}" if clause else "step " + goroutine


def step_command(entry: Entry) -> str:
    """The command that takes a kept step again."""
    return step_words(entry.step.partition("#")[0], entry.kind.clause)


def steps_taken(reply: Reply) -> int:
    """How many steps a command took, or took back."""
    if reply.name in ("stepped", "undone"):
        return 1
    if reply.name == "ran":
        return replies.ran(reply).taken
    return len(replies.steps(reply)) if reply.name in ("steps", "partly") else 0


def end_of_step(entry: Entry) -> Optional[Reason]:
    return END_OF_KIND.get(entry.kind.word)


def end_of_run(run: Ran) -> Optional[Reason]:
    return run.reason if run.reason in (Reason.ENDED, Reason.FAULT) else None
