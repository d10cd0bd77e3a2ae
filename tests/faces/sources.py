"""Programs: those of the repository, and random ones with what makes waits hard to tell.

The random ones have locks that are taken by a send and by a receive, channels of channels, selects, closes, calls, and several
goroutines of one function. They are made so that the checker accepts them, and mostly end, or get stuck, within some hundred steps.
"""
from __future__ import annotations

import json
import random
from collections.abc import Callable
from pathlib import Path

from support.places import TOP

FOLDERS = ["crates/sessions/data", "examples", "bench/programs", "crates/races/data"]
NUMBERS, CARRIERS = "chan int", "chan chan int"

# The variables that are known in a block, each with its type.
Scope = dict[str, str]


def of_repository() -> list[Path]:
    """The programs of the repository: examples, stories, exercises."""
    found = [path for folder in FOLDERS for path in sorted((TOP / folder).glob("*.go"))]
    exercises = json.loads((TOP / "page" / "exercises.json").read_text(encoding="utf-8"))
    found += [TOP / it["source"] for it in exercises]
    return list(dict.fromkeys(path for path in found if path.stat().st_size < 20_000))


class Source:
    """A random source, decided by its seed."""

    def __init__(self, seed: int) -> None:
        self.chance = random.Random(seed)
        self.names = 0
        count = self.chance.randint(2, 4)
        self.functions = [self.heading(number) for number in range(count)]

    def heading(self, number: int) -> tuple[str, list[str]]:
        """The name of a function and the types of its parameters, after a number."""
        kinds = [NUMBERS, self.chance.choice([NUMBERS, NUMBERS, CARRIERS])] + [NUMBERS] * self.chance.randint(0, 2)
        self.chance.shuffle(kinds)
        return f"f{number}", kinds

    def maybe(self, share: float) -> bool:
        return self.chance.random() < share

    def new(self, start: str) -> str:
        self.names += 1
        return f"{start}{self.names}"

    def text(self) -> str:
        pick = "func pick(n int, a, b chan int) chan int {\n\tif n > 1 {\n\t\treturn a\n\t}\n\treturn b\n}\n"
        parts = ["package main\n", pick] + [self.function(number) for number in range(len(self.functions))] + [self.main()]
        return "".join(parts)

    def function(self, number: int) -> str:
        name, kinds = self.functions[number]
        scope = {self.new("p"): kind for kind in kinds}
        heading = f"func {name}(n int, {', '.join(f'{it} {kind}' for it, kind in scope.items())}) {{"
        if self.maybe(0.15):
            return f"{heading} {self.use(scope)}; {self.use(scope)} }}\n"
        return f"{heading}\n{self.block(scope, number, 2, self.chance.randint(1, 4))}}}\n"

    def main(self) -> str:
        scope, made = {}, []
        for kind in [NUMBERS, NUMBERS, NUMBERS, CARRIERS][: self.chance.randint(2, 4)]:
            name = self.new("c")
            scope[name] = kind
            size = self.chance.choice([0, 0, 1, 1, 2])
            made.append(f"\t{name} := make({kind}, {size})\n")
            if size and kind == NUMBERS and self.maybe(0.4):
                made.append(f"\t{name} <- 7\n")
        started = []
        for _ in range(self.chance.randint(1, 3)):
            number = self.chance.randrange(len(self.functions))
            started += [f"\t{self.go(number, scope)}\n"] * self.chance.randint(1, 2)
        body = self.block(scope, -1, 2, self.chance.randint(1, 4))
        return f"func main() {{\n\tn := 1\n{''.join(made)}{''.join(started)}{body}}}\n"

    # Statements.

    def block(self, scope: Scope, number: int, depth: int, count: int) -> str:
        """Some statements; what they declare is known to those behind them."""
        scope = dict(scope)
        return "".join(f"\t{line}\n" for _ in range(count) for line in self.statement(scope, number, depth).split("\n"))

    def statement(self, scope: Scope, number: int, depth: int) -> str:
        def nested(way: Callable[[Scope, int, int], str]) -> Callable[[], str]:
            return lambda: way(scope, number, depth - 1) if depth else self.use(scope)

        kinds: list[Callable[[], str]] = [lambda: self.use(scope)] * 6 + [lambda: self.locked(scope)] * 2
        kinds += [lambda: self.declared(scope)] * 2 + [nested(self.choice)] * 2 + [nested(self.loop), nested(self.branch)]
        kinds += [lambda: self.called(scope, number)] * 2
        return self.chance.choice(kinds)()

    def channel(self, scope: Scope, kind: str = NUMBERS) -> str:
        names = [name for name, of in scope.items() if of == kind]
        return self.chance.choice(names) if names else ""

    def use(self, scope: Scope) -> str:
        """A send, a receive or a close."""
        c, carrier = self.channel(scope), self.channel(scope, CARRIERS)
        if carrier and self.maybe(0.35):
            return self.chance.choice([f"{carrier} <- {c}", f"<-<-{carrier}", f"<-{carrier} <- n", f"{carrier} <- pick(n, {c}, {c})"])
        other = self.channel(scope)
        plain = [f"{c} <- n", f"<-{c}", f"n = <-{c}", f"{c} <- n + 1", f"<-{c}", f"{c} <- 3"]
        odd = [f"println(<-{c}, <-{other})", f"<-pick(n, {c}, {other})", f"pick(n, {c}, {other}) <- 5", f"close({c})", f"{c} <- <-{other}"]
        return self.chance.choice(plain * 2 + odd)

    def locked(self, scope: Scope) -> str:
        """A lock of one kind or the other around a use; now and then it is not given back."""
        lock, inner = self.channel(scope), self.use(scope)
        take, give = self.chance.choice([(f"{lock} <- n", f"<-{lock}"), (f"<-{lock}", f"{lock} <- 1")])
        forgets = "if n > 1 {\n\treturn\n}\n" if self.maybe(0.2) else ""
        return f"{take}\n{inner}\n{forgets}{give}"

    def declared(self, scope: Scope) -> str:
        c, carrier, name = self.channel(scope), self.channel(scope, CARRIERS), self.new("v")
        made = f"make(chan int, {self.chance.randint(0, 1)})"
        value = self.chance.choice([made, c, f"pick(n, {c}, {self.channel(scope)})"] + ([f"<-{carrier}"] * 3 if carrier else []))
        scope[name] = NUMBERS
        if self.maybe(0.1):
            return f"var {name} chan int"
        return f"{name} := {value}"

    def choice(self, scope: Scope, number: int, depth: int) -> str:
        """A select."""
        if self.maybe(0.05):
            return "select {}"
        cases = [self.case(scope, number, depth) for _ in range(self.chance.randint(1, 3))]
        if self.maybe(0.3):
            cases.append("default:\n")
        return f"select {{\n{''.join(cases)}}}"

    def case(self, scope: Scope, number: int, depth: int) -> str:
        return f"case {self.communication(scope)}:\n{self.block(scope, number, depth, self.chance.randint(0, 1))}"

    def communication(self, scope: Scope) -> str:
        c = self.channel(scope)
        return self.chance.choice([f"{c} <- n", f"<-{c}", f"n = <-{c}"])

    def loop(self, scope: Scope, number: int, depth: int) -> str:
        if self.maybe(0.3):
            return f"for range {self.channel(scope)} {{\n{self.block(scope, number, depth, 1)}}}"
        i = self.new("i")
        return f"for {i} := 0; {i} < {self.chance.randint(1, 3)}; {i}++ {{\n{self.block(scope, number, depth, self.chance.randint(1, 2))}}}"

    def branch(self, scope: Scope, number: int, depth: int) -> str:
        inner = self.block(scope, number, depth, 1)
        other = f" else {{\n{self.block(scope, number, depth, 1)}}}" if self.maybe(0.3) else ""
        return f"if n > {self.chance.randint(0, 3)} {{\n{inner}}}{other}"

    def called(self, scope: Scope, number: int) -> str:
        """A call of a function further down, so that calls end, or a start of one."""
        below = range(number + 1, len(self.functions))
        if not below:
            return self.use(scope)
        call = self.go(self.chance.choice(below), scope)
        return call if self.maybe(0.4) else call[len("go ") :]

    def go(self, number: int, scope: Scope) -> str:
        name, kinds = self.functions[number]
        given = [self.channel(scope, kind) or "nil" for kind in kinds]
        return f"go {name}({self.chance.choice(['n', '1', '2', '3'])}, {', '.join(given)})"


def random_source(seed: int) -> str:
    return Source(seed).text()
