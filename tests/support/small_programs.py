"""Random programs so small that a plain model can try all their schedules."""
from __future__ import annotations

import random
from collections.abc import Sequence

# The forms of a statement; a form that stands twice is drawn twice as often.
FORMS = ("send", "send", "receive", "receive", "close", "poll", "select", "items", "fault", "print")


def small_program(seed: int) -> str:
    """Two or three goroutines, which share one or two channels."""
    chance = random.Random(seed)
    channels = ["a", "b"][: chance.randint(1, 2)]
    takes = f"{', '.join(channels)} chan int"
    lines = ["package main"]
    workers = chance.randint(1, 2)
    for number in range(workers):
        lines += [f"func worker{number}({takes}) {{", *body(chance, channels, chance.randint(1, 3)), "}"]
    lines.append("func main() {")
    lines += [f"{name} := make(chan int, {chance.choice((0, 0, 1, 2))})" for name in channels]
    lines += [f"go worker{number}({', '.join(channels)})" for number in range(workers)]
    return "\n".join([*lines, *body(chance, channels, chance.randint(0, 2)), "}", ""])


def body(chance: random.Random, channels: Sequence[str], statements: int) -> list[str]:
    lines = [f"v := {chance.randint(0, 2)}"]
    for _ in range(statements):
        lines += statement(chance, channels)
    return [*lines, "_ = v"]


def statement(chance: random.Random, channels: Sequence[str]) -> list[str]:
    """A random statement, as lines."""
    one, other = chance.choice(channels), chance.choice(channels)
    form = chance.choice(FORMS)
    if form == "send":
        return [f"{one} <- v"]
    if form == "receive":
        return [f"v = <-{one}"]
    if form == "close":
        return [f"close({one})"]
    if form == "poll":
        return ["select {", chance.choice((f"case v = <-{one}:", f"case {one} <- 1:")), "default:", "v = 2", "}"]
    if form == "select":
        return ["select {", f"case {one} <- v:", f"case v = <-{other}:", "}"]
    if form == "items":
        return [f"if len({one}) > 0 {{", f"v = <-{other}", "}"]
    return ["println(1 / v)"] if form == "fault" else ["println(v)"]
