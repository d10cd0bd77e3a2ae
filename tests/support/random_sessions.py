"""Random sources, and random commands of all that change a session."""
from __future__ import annotations

import random
from collections.abc import Sequence

from .replies import Step, objects
from .session import Session


def wander(chance: random.Random, session: Session) -> None:
    """Random commands, of all that change a session."""
    for _ in range(chance.randint(5, 40)):
        command = random_command(chance, session.log())
        if command:
            session.ask(command)


def random_command(chance: random.Random, log: list[Step]) -> str:
    """A command that may change a session with this log; an empty one where there is nothing to name."""
    goroutines, channels = objects(log)
    command = chance.choice(("step", "step", "step", "run", "run", "undo", "back", "back", "redo", "order"))
    if command == "step":
        return f"step {chance.choice(goroutines)}{chance.choice(('', '', ' 1', ' 2'))}"
    if command == "run":
        return f"run {chance.randint(1, 12)}"
    if command == "back" and log:
        return random_back(chance, log, goroutines, channels)
    if command == "order" and log:
        at = chance.randrange(len(log))
        names = [step.name for step in log]
        names.insert(chance.randrange(len(log)), names.pop(at))
        return f"order {' '.join(names)}"
    return command if command in ("undo", "redo") else ""


def random_back(chance: random.Random, log: list[Step], goroutines: list[str], channels: list[str]) -> str:
    """One of the forms of `back`."""
    transfer = f"{chance.choice(('send', 'recv'))} {chance.choice(channels or ['g0/c1'])} {chance.randint(1, 3)}"
    forms = (
        chance.choice(log).name,
        f"go {chance.choice(goroutines)}",
        f"var {chance.choice(goroutines)} {chance.choice('nkv')}",
        transfer,
    )
    return f"back {chance.choice(forms)}"


def operation(chance: random.Random, channels: Sequence[str], depth: int) -> list[str]:
    """A random statement, as lines."""
    c, d = chance.choice(channels), chance.choice(channels)
    kind = chance.choice(("send", "send", "receive", "receive", "receive", "select", "count", "print", "loop", "close", "go"))
    if kind == "send":
        return [f"{c} <- n"]
    if kind == "receive":
        return chance.choice(([f"v = <-{c}"], [f"n, open = <-{c}", "_ = open"]))
    if kind == "select":
        lines = ["select {", f"case {c} <- n:", "n++", f"case v = <-{d}:", "println(v)"]
        return lines + (["default:", "n--"] if chance.random() < 0.4 else []) + ["}"]
    if kind == "count":
        return [chance.choice(("n = n*3 + v", "v, n = n, v", "n = twice(v)", f"v = len({c})"))]
    if kind == "print":
        return ["println(n, v)"]
    if kind == "loop" and depth < 2:
        return [f"for k := 0; k < {chance.randint(1, 3)}; k++ {{", *operation(chance, channels, depth + 1), "}"]
    if kind == "close" and chance.random() < 0.3:
        return [f"close({c})"]
    if kind == "go" and chance.random() < 0.4:
        return [f"go leaf({c}, {d}, n)"]
    return ["n++"]


def body(chance: random.Random, channels: Sequence[str]) -> list[str]:
    """Some statements, between the variables that they use and a line that prints one."""
    lines = [f"n, v, open := {chance.randint(0, 9)}, 0, true", "_ = open"]
    for _ in range(chance.randint(2, 6)):
        lines += operation(chance, channels, 0)
    return [*lines, "_ = v", "println(n)"]


def random_source(chance: random.Random) -> str:
    """A program of a few goroutines over a few channels."""
    lines = ["package main", "func twice(k int) int {", "return k + k", "}", "func leaf(a, b chan int, n int) {"]
    lines += [chance.choice(("a <- n", "println(<-b)", "b <- <-a")), "}"]
    workers = chance.randint(1, 3)
    for number in range(workers):
        lines += [f"func worker{number}(a, b chan int) {{", *body(chance, ("a", "b")), "}"]
    lines += ["func main() {", f"a := make(chan int, {chance.randint(0, 2)})", "b := make(chan int)"]
    lines += [f"go worker{number}({chance.choice(('a, b', 'b, a'))})" for number in range(workers)]
    return "\n".join([*lines, *body(chance, ("a", "b")), "}", ""])
