"""A session: commands in, lines out. What is kept is a list of steps; the state is made of them again where it is wanted."""
from __future__ import annotations

import re
from collections.abc import Callable
from typing import Optional

from .parser import functions
from .running import UNSET, Frame
from .state import Goroutine, Step, Waiter
from .values import text_of
from .world import Refused, World, counts

GO = r"g0(?:\.[1-9]\d*)*"
CHANNEL = GO + r"/c[1-9]\d*"
NUMBER = r"0|[1-9]\d*"
MOST_COUNT, MOST_STEP = 2**32 - 1, 2**64 - 1
NAME = r"[A-Za-z_]\w*"
KEYWORDS = set(
    "break case chan const continue default defer else fallthrough for func go goto if import interface map package range return "
    "select struct switch type var".split()
)
FORMS = {
    "step": rf"step ({GO})(?: ({NUMBER}))?", "run": rf"run ({NUMBER})", "undo": "undo", "redo": "redo",
    "back": rf"back ({GO})#([1-9]\d*)", "back go": rf"back go ({GO})", "back send": rf"back send ({CHANNEL}) ({NUMBER})",
    "back recv": rf"back recv ({CHANNEL}) ({NUMBER})", "back var": rf"back var ({GO}) ({NAME})",
    "order": rf"order((?: {GO}#[1-9]\d*)+)", "deps": rf"deps ({GO})#([1-9]\d*)", "causes": rf"causes ({GO})#([1-9]\d*)",
    "break": rf"break ({NUMBER})", "clear": rf"clear ({NUMBER})", "free": rf"free ({NUMBER})", "show": rf"show ({GO})",
    "chan": rf"chan ({CHANNEL})", "text": rf"text ({GO})", "console": "console", "log": "log", "quit": "quit",
}
# The greatest number of each command that takes one from 1 on.
LIMITS = {"run": 1_000_000, "break": MOST_COUNT, "clear": MOST_COUNT, "step": MOST_COUNT, "back send": MOST_COUNT, "back recv": MOST_COUNT}


class Rejected(Exception):
    """A line that is no command."""


def command_of(line: str) -> tuple[str, list[Optional[str]]] | tuple[str, list[str]]:
    """The form of a command and its words."""
    words = re.split(r"[ \t]+", line.strip(" \t"))
    text = " ".join(words)
    for form, pattern in FORMS.items():
        found = re.fullmatch(pattern, text)
        if found:
            check_numbers(form, text, found)
            return form, [it for it in found.groups()]
    raise Rejected


def check_numbers(form: str, text: str, found: re.Match[str]) -> None:
    """Rejects a number that is out of its range."""
    named = " ".join(re.findall(r"\bg0[.\d]*(?:/c\d+)?", text))
    if any(int(it) > MOST_COUNT for it in re.findall(r"(?<=[.c])\d+", named)):
        raise Rejected
    if any(int(it) > MOST_STEP for it in re.findall(r"(?<=#)\d+", text)):
        raise Rejected
    last = found.groups()[-1] if found.groups() else None
    if form in LIMITS and last and last.isdigit() and not 1 <= int(last) <= LIMITS[form]:
        raise Rejected
    if form == "free" and last and int(last) > 1_000_000 or form == "back var" and last in KEYWORDS:
        raise Rejected


def told(code: Refused | str) -> list[str]:
    return [f"no {code}"]


class Session:
    """A program under the debugger."""

    def __init__(self, source: bytes) -> None:
        self.functions = functions(source)
        self.log: list[Step] = []
        self.again: list[Step] = []
        self.lines = set[int]()
        self.world = World(self.functions)

    def ask(self, line: str) -> Optional[list[str]]:
        """The lines of the reply; None where there is no answer."""
        line = line[:-1] if line.endswith("\r") else line
        if not line.strip(" \t"):
            return None
        try:
            form, words = command_of(line)
        except Rejected:
            return ["? bad command"]
        try:
            answer: Callable[..., list[str]] = getattr(self, f"on_{form.replace(' ', '_')}")
            return answer(*words)
        except Refused as refused:
            return told(refused)

    # Steps

    def take(self, go: str, choice: Optional[int]) -> Step:
        step = self.world.step(go, choice)
        self.log.append(step)
        return step

    def rebuild(self, steps: list[Step]) -> None:
        """The state of these steps, taken from the start."""
        self.world, self.log = World(self.functions), []
        for step in steps:
            self.take(step.go, step.choice)

    def on_step(self, go: str, case: Optional[str]) -> list[str]:
        step = self.take(go, int(case) if case else None)
        self.again = []
        return [f"ok {step.name} {step.kind}"]

    def turn(self) -> Optional[str]:
        """Whose turn it is."""
        ready = self.world.ready()
        last = counts(self.log[-1].go) if self.log else counts("g0")
        behind = [it for it in ready if counts(it) > last]
        if not self.log:
            behind = ready
        return next(iter(behind or ready), None)

    def end_of_run(self, taken: int, wanted: int) -> Optional[str]:
        """Why a run goes no further, if it does not."""
        world = self.world
        if world.end:
            return world.end[0]
        if taken == wanted:
            return "count"
        go = self.turn()
        if not go:
            return "stuck"
        line = world.goroutines[go].ask.line
        return f"break {line}" if taken and line in self.lines else None

    def on_run(self, count: str) -> list[str]:
        taken = 0
        while not self.end_of_run(taken, int(count)):
            self.take(self.turn() or "", None)
            taken += 1
        if taken:
            self.again = []
        return [f"ok {taken} {self.end_of_run(taken, int(count))}"]

    def on_undo(self) -> list[str]:
        if not self.log:
            return told("B1")
        last = self.log[-1]
        self.again = [last]
        self.rebuild(self.log[:-1])
        return [f"ok {last.name}"]

    # Dependence

    def place(self, name: str) -> int:
        """The place of a kept step."""
        found = [i for i, step in enumerate(self.log) if step.name == name]
        if not found:
            raise Refused("B2")
        return found[0]

    def dependents(self, place: int) -> list[int]:
        found = [place]
        for i in range(place + 1, len(self.log)):
            if any(self.log[i].conflicts(self.log[k]) for k in found):
                found.append(i)
        return found

    def causes(self, place: int) -> list[int]:
        found = [place]
        for i in reversed(range(place)):
            if any(self.log[i].conflicts(self.log[k]) for k in found):
                found.insert(0, i)
        return found

    def listed(self, steps: list[Step]) -> list[str]:
        return [" ".join([f"ok {len(steps)}", *(it.name for it in steps)])]

    def on_deps(self, go: str, number: str) -> list[str]:
        return self.listed([self.log[i] for i in self.dependents(self.place(f"{go}#{number}"))])

    def on_causes(self, go: str, number: str) -> list[str]:
        return self.listed([self.log[i] for i in self.causes(self.place(f"{go}#{number}"))])

    def take_back(self, place: int) -> list[str]:
        gone = self.dependents(place)
        steps = [self.log[i] for i in gone]
        self.rebuild([step for i, step in enumerate(self.log) if i not in gone])
        self.again = steps
        return self.listed(steps)

    def first(self, test: Callable[[Step], bool], number: int = 1) -> int:
        """The place of the step of this number for which the test holds."""
        found = [i for i, step in enumerate(self.log) if test(step)]
        if len(found) < number:
            raise Refused("B2")
        return found[number - 1]

    def on_back(self, go: str, number: str) -> list[str]:
        return self.take_back(self.place(f"{go}#{number}"))

    def on_back_go(self, go: str) -> list[str]:
        return self.take_back(self.first(lambda step: step.started == go))

    def on_back_send(self, channel: str, number: str) -> list[str]:
        return self.take_back(self.first(lambda step: step.operation == ("send", channel), int(number)))

    def on_back_recv(self, channel: str, number: str) -> list[str]:
        return self.take_back(self.first(lambda step: step.operation == ("receive", channel), int(number)))

    def on_back_var(self, go: str, name: str) -> list[str]:
        found = [i for i, step in enumerate(self.log) if step.go == go and name in step.gives]
        if not found:
            raise Refused("B2")
        return self.take_back(found[-1])

    def on_redo(self) -> list[str]:
        if not self.again:
            return told("B5")
        steps = self.again
        for step in steps:
            self.take(step.go, step.choice)
        self.again = []
        return self.listed(steps)

    def on_order(self, names: str) -> list[str]:
        asked = names.split()
        if sorted(asked) != sorted(step.name for step in self.log):
            return told("B3")
        by_name = {step.name: step for step in self.log}
        place = {name: i for i, name in enumerate(asked)}
        for j, later in enumerate(self.log):
            for earlier in self.log[:j]:
                if place[later.name] < place[earlier.name] and later.conflicts(earlier):
                    return told(f"B4 {earlier.name} {later.name}")
        self.rebuild([by_name[name] for name in asked])
        self.again = []
        return ["ok"]

    # What is told

    def on_break(self, line: str) -> list[str]:
        self.lines.add(int(line))
        return ["ok"]

    def on_clear(self, line: str) -> list[str]:
        self.lines.discard(int(line))
        return ["ok"]

    def on_free(self, count: str) -> list[str]:
        return [f"ok grant {count}"]

    def goroutine(self, go: str) -> Goroutine:
        found = self.world.goroutines.get(go)
        if not found:
            raise Refused("N2")
        return found

    def on_show(self, go: str) -> list[str]:
        it = self.goroutine(go)
        if it.status == "done":
            return [f"| {go} done {it.steps}", "ok"]
        head = f"| {go} {it.status} {it.steps} line {it.ask.line}"
        return [head, *map(frame_line, reversed(it.frames)), "ok"]

    def on_chan(self, name: str) -> list[str]:
        channel = self.world.channels.get(name)
        if not channel:
            raise Refused("N2")
        return [
            f"| cap {channel.capacity} {'closed' if channel.closed else 'open'}",
            " ".join(["| items", *map(text_of, channel.items)]),
            " ".join(["| senders", *(waiter_text(it, True) for it in channel.senders)]),
            " ".join(["| receivers", *(waiter_text(it, False) for it in channel.receivers)]),
            "ok",
        ]

    def on_text(self, go: str) -> list[str]:
        return [*(f"| {line}" for line in self.goroutine(go).lines), "ok"]

    def on_console(self) -> list[str]:
        return [*(f"| {step.printed}" for step in self.log if step.printed is not None), "ok"]

    def on_log(self) -> list[str]:
        return [*(f"| {step.name} {step.kind}" for step in self.log), f"ok {len(self.log)}"]

    def on_quit(self) -> list[str]:
        return ["ok"]


def frame_line(frame: Frame) -> str:
    """A frame with the variables that hold a value."""
    names = frame.function.variables
    held = [f"{name}={text_of(value)}" for name, value in zip(names, frame.cells) if value is not UNSET and name != "_"]
    return " ".join([f"| {frame.function.name}", *held])


def waiter_text(waiter: Waiter, sends: bool) -> str:
    case = "" if waiter.case is None else f"@{waiter.case}"
    return f"{waiter.go}{case}" + (f"={text_of(waiter.value)}" if sends else "")
