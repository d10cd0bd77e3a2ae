"""1,000 random requests: none hangs, and after each the editor sees what a fresh `rewind` tells after the same commands.

`test_a_small_session` draws by hypothesis, so that a session that differs comes in its smallest form.
"""
from __future__ import annotations

import os
import random
import re
import subprocess
from pathlib import Path
from typing import Any

import pytest
from hypothesis import HealthCheck, Phase, given, settings, strategies
from support.forms import short_first

from .client import DATA, REWIND, Client, Message

OFFERED = ("setDataBreakpoints", "setFunctionBreakpoints", "setExceptionBreakpoints", "goto", "restartFrame", "stepIn", "completions")
PROGRAMS = ("lost_update", "deadlock", "prime_sieve", "race_in_select", "send_on_closed", "buffered_channel", "leaked_goroutine")
# How many requests a session has, and how many sessions there are: in the short form, in the long one, and in their smallest form.
REQUESTS, SESSIONS, FULL, SMALL, EXAMPLES = 50, 20, 200, 12, 8

MOVES = ("next", "stepIn", "stepIn", "stepOut", "stepBack", "stepBack", "continue", "reverseContinue", "pause")
LOOKS = ("threads", "stackTrace", "scopes", "variables", "exceptionInfo", "rewind/log", "rewind/causes", "rewind/dependents")
COMMANDS: tuple[str, ...] = ("step g0", "step g0.1", "step g0.2 2", "run 3", "run 1000", "undo", "redo", "back g0#2", "back g0.1#1", "back go g0.1")
COMMANDS += ("back send g0/c1 1", "break 6", "clear 6", "log", "console", "order g0#1", "deps g0#1", "nonsense", "show g0", "\t")
# Words of the shell: those that only look, and those that move.
WORDS: tuple[str, ...] = ("why", "bt", "channels", "goroutines", "history all", "list", "direct g0#1", "preview g0#2", "print x", "help")
WORDS += ("goroutine g0", "goroutine g0.1")
GOING: tuple[str, ...] = ("next", "step", "step 3", "finish", "until 9", "continue", "reverse-next", "reverse-continue", "back 12", "c", "n")
GOING += ("back var x",)
VARIABLES = ("balance", "x", "v", "i", "ch", "a", "done", "n")
# Of these and of variables conditions are made that mostly mean nothing.
PARTS: tuple[str, ...] = ("(", ")", "&&", "||", "==", "=", "<", "/ 0", "%", "!", "-", "1", "0x", "true", "len(", "cap(ch)")
PARTS += ("\u00a0", "\x00", '"', "<-", "{", ";")
FUNCTIONS = ("main", "deposit", "nobody", "12", "", "worker")
ODD: tuple[object, ...] = (None, -1, 0, 3.5, True, "g0", "g0#1", [], {}, 2**70, "\x00", "x" * 5000)


class Wanderer:
    """An editor that sends requests at random, and what it has seen."""

    def __init__(self, chance: random.Random, commands: str) -> None:
        self.chance = chance
        self.path = os.path.join(DATA, self.chance.choice(PROGRAMS) + ".go")
        self.commands = commands
        self.client = Client(commands=commands)
        self.printed: list[str] = []
        self.client.launch(self.path, [self.chance.randint(1, 30)], stopOnEntry=self.chance.random() < 0.5)
        self.see_all()

    def see_all(self) -> None:
        """Waits for the stop that follows a movement, and notes what was printed up to it."""
        self.client.event("stopped")
        self.note_output(self.client.passed)

    def note_output(self, events: list[Message]) -> None:
        for event in events:
            if event["event"] == "output":
                self.note(event["body"]["category"], event["body"]["output"].rstrip("\n").split("\n"))

    def note(self, category: str, lines: list[str]) -> None:
        if category == "stdout":
            self.printed += lines
        elif lines[0].startswith("The printed lines stand in another order"):
            self.printed = lines[1:]
        for line in lines:
            if line.startswith("No longer printed: "):
                self.printed.remove(line[len("No longer printed: ") :])

    def request(self) -> tuple[str, dict[str, Any]]:
        """A random request, most of them of the right form."""
        choose = self.chance.choice
        thread = {"threadId": self.chance.randint(1, 4)}
        kind = self.chance.random()
        if kind < 0.4:
            return choose(MOVES), thread
        if kind < 0.6:
            return "evaluate", {"expression": choose(COMMANDS), "context": choose(("repl", "repl", "hover"))}
        if kind < 0.65:
            lines = [{"line": self.chance.randint(1, 30), **self.condition()} for _ in range(self.chance.randint(0, 3))]
            return "setBreakpoints", {"source": {"path": self.path}, "breakpoints": lines}
        if kind < 0.7:
            return self.offered(thread["threadId"])
        if kind < 0.75:
            return "evaluate", {"expression": choose(WORDS + GOING), "context": "repl"}
        if kind < 0.8:
            step = f"g0{choose(('', '.1', '.2'))}#{self.chance.randint(1, 5)}"
            return choose(("rewind/back", "rewind/redo", "rewind/causes")), {"step": step}
        names = ("threadId", "frameId", "variablesReference", "step", "expression", "source", "breakpoints", "start", "target")
        odd = {choose(names): choose(ODD) for _ in range(2)}
        return choose(LOOKS + MOVES + ("initialize", "launch", "attach", "evaluate", "fly", "rewind/back")), {**thread, **odd}

    def condition(self) -> dict[str, Any]:
        """What a breakpoint may want besides a line."""
        holds = {"condition": f"{self.chance.choice(VARIABLES)} > 1"}
        parts = self.chance.choices((*VARIABLES, *PARTS), k=self.chance.randint(1, 5))
        malformed = {"condition": self.chance.choice(("", " ")).join(parts)}
        more: list[dict[str, Any]] = [{}, holds, malformed, malformed, {"hitCondition": "2"}, {"logMessage": "{x} {balance} {x +}"}]
        return self.chance.choice(more)

    def offered(self, thread: int) -> tuple[str, dict[str, Any]]:
        """A request for what an editor offers: variables to watch, lines and frames to go back to, clauses."""
        command = self.chance.choice(OFFERED)
        if command == "setDataBreakpoints":
            watches = [{"dataId": f"g0{self.chance.choice(('', '.1'))} {self.chance.choice(VARIABLES)}"}]
            channels = [{"dataId": f"g0/c{self.chance.randint(1, 3)}", "accessType": self.chance.choice(("read", "write", "readWrite"))}]
            return command, {"breakpoints": self.chance.choice(([], watches, channels))}
        if command == "setFunctionBreakpoints":
            return command, {"breakpoints": [{"name": self.chance.choice(FUNCTIONS), **self.condition()}]}
        if command == "setExceptionBreakpoints":
            return command, {"filters": self.chance.sample(("panics", "deadlocks", "leaks", "all"), 2)}
        if command == "goto":
            arguments = {"source": {"path": self.path}, "line": self.chance.randint(1, 30)}
            targets = self.client.body("gotoTargets", arguments)["targets"]
            return command, {"threadId": thread, "targetId": self.chance.choice(targets)["id"] if targets else 0}
        frames = self.client.ask("stackTrace", {"threadId": thread})
        frame = self.chance.choice(frames["body"]["stackFrames"])["id"] if frames["success"] else 0
        if command == "stepIn" and frame:
            targets = self.client.body("stepInTargets", {"frameId": frame})["targets"]
            return command, {"threadId": thread, "targetId": self.chance.choice(targets)["id"]}
        return command, {"frameId": frame, "threadId": thread, "text": "back g0", "column": self.chance.randint(1, 8)}

    def one(self) -> None:
        """One request, up to the stop that comes of it."""
        command, arguments = self.request()
        response = self.client.ask(command, arguments)
        moved = command in MOVES or command in ("rewind/back", "rewind/redo", "goto", "restartFrame")
        if command == "evaluate" and response["success"]:
            word = arguments["expression"].split()[:1]
            ok = response["body"]["result"].split("\n")[-1].startswith("ok")
            moved = ok and word and word[0] in ("step", "run", "undo", "back", "redo", "order")
            moved = moved or arguments["expression"] in GOING and arguments["context"] == "repl"
        if moved and response["success"]:
            self.see_all()

    # What the editor sees, in the form in which Rewind tells it.

    def seen(self) -> list[str]:
        lines = []
        for thread in self.client.body("threads")["threads"]:
            lines += self.goroutine(thread)
        return lines + ["console"] + sorted(self.printed)

    def goroutine(self, thread: dict[str, Any]) -> list[str]:
        """The lines of `show`, from the frames and variables of a thread."""
        frames = self.client.body("stackTrace", {"threadId": thread["id"]})["stackFrames"]
        scopes = self.client.body("scopes", {"frameId": frames[0]["id"]})["scopes"]
        state = {one["name"]: one["value"] for one in self.variables(scopes[1])}
        first = f"| {state['name']} {state['state']} {state['steps']}"
        if state["state"] == "done":
            return [first]
        first += f" line {frames[0]['line']}"
        return [first] + [self.frame(frame) for frame in frames]

    def frame(self, frame: dict[str, Any]) -> str:
        scopes = self.client.body("scopes", {"frameId": frame["id"]})["scopes"]
        pairs = [(re.sub(r" \(\d+\)$", "", one["name"]), one["value"].split(" ")[0]) for one in self.variables(scopes[0])]
        return " ".join(["|", frame["name"]] + [f"{name}={value}" for name, value in pairs])

    def variables(self, scope: dict[str, Any]) -> list[dict[str, Any]]:
        asked = {"variablesReference": scope["variablesReference"]}
        found: list[dict[str, Any]] = self.client.body("variables", asked)["variables"]
        return found

    # What a fresh session tells.

    def fresh(self) -> list[str]:
        """What a new `rewind` tells after all commands that the adapter gave to its own."""
        with open(self.commands, "rb") as file:
            before = file.read()
        names = [re.split(r"[ ,]", thread["name"])[0] for thread in self.client.body("threads")["threads"]]
        questions = b"".join(b"nonsense\nshow %s\n" % name.encode() for name in names)
        done = subprocess.run([REWIND, self.path], input=before + questions + b"console\n", stdout=subprocess.PIPE, check=True)
        replies = done.stdout.decode().split("? bad command\n")[-len(names) :]
        shown, console = replies[-1].split("ok\n")[:2]
        lines = "".join(replies[:-1]).replace("ok\n", "") + shown
        return lines.split("\n")[:-1] + ["console"] + sorted(line[2:] for line in console.split("\n")[:-1])


def check_session(chance: random.Random, commands: str, requests: int) -> None:
    """Compares what an editor sees after each request."""
    wanderer = Wanderer(chance, commands)
    try:
        for _ in range(requests):
            wanderer.one()
            assert wanderer.seen() == wanderer.fresh(), Path(commands).read_text(encoding="utf-8")
    finally:
        said = wanderer.client.close()
    assert said == ""


@pytest.mark.parametrize("number", short_first(range(SESSIONS), range(FULL)))
def test_a_session_of_a_seed(number: int, seed: int, tmp_path: Path) -> None:
    check_session(random.Random(seed + number), str(tmp_path / "commands"), REQUESTS)


@settings(max_examples=EXAMPLES, deadline=None, derandomize=True, suppress_health_check=list(HealthCheck), phases=set(Phase) - {Phase.explain})
@given(chance=strategies.randoms(use_true_random=False))
def test_a_small_session(chance: random.Random, tmp_path_factory: pytest.TempPathFactory) -> None:
    check_session(chance, str(tmp_path_factory.getbasetemp() / "commands"), SMALL)
