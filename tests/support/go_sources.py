"""Random programs in ordinary Go: shared variables, locks, groups, channels, closures, structs and methods."""
from __future__ import annotations

from random import Random

HEAD = """package main

import (
	"fmt"
	"runtime"
	"sync"
	"sync/atomic"
)

type Box struct {
	mu    sync.Mutex
	value int
	on    bool
}

func (b *Box) add(n int) {
	b.mu.Lock()
	defer b.mu.Unlock()
	b.value += n
}

func (b *Box) get() int {
	b.mu.Lock()
	defer b.mu.Unlock()
	return b.value
}

func twice(n int) (int, bool) {
	if n > 3 {
		return n, false
	}
	return 2 * n, true
}

var global int
var lock sync.Mutex
var hits int64
"""
NAMES = ("a", "b")


class Source:
    """A program that is drawn. All its loops end; it may come to a deadlock, or to a panic."""

    def __init__(self, seed: int) -> None:
        self.random = Random(seed)
        self.lines: list[str] = []
        self.depth = 1
        self.count = 0

    def put(self, text: str) -> None:
        self.lines.append("\t" * self.depth + text)

    def fresh(self, name: str) -> str:
        self.count += 1
        return f"{name}{self.count}"

    def number(self, names: tuple[str, ...] = ()) -> str:
        return self.random.choice((str(self.random.randint(0, 5)), "global", "shared", "box.value", *names))

    def text(self) -> str:
        """The whole program."""
        sizes = [self.random.randint(0, 2) for _ in NAMES]
        workers = self.random.randint(2, 3)
        for line in (
            "box := &Box{value: 1}", "shared := 0", *(f"{name} := make(chan int, {size})" for name, size in zip(NAMES, sizes)),
            "results := make([]int, 3)", "var group sync.WaitGroup", f"group.Add({workers})",
        ):
            self.put(line)
        for number in range(workers):
            self.worker(number)
        for _ in range(self.random.randint(0, 2)):
            self.action(2)
        if self.random.random() < 0.8:
            self.put("group.Wait()")
        self.put('fmt.Println(global, shared, box.get(), box.on, atomic.LoadInt64(&hits), results[0], results[1], results[2])')
        used = "runtime.Gosched()" if "runtime" not in "".join(self.lines) else ""
        body = "\n".join(self.lines)
        return f"{HEAD}\nfunc main() {{\n\t{used}\n{body}\n\t_, _ = a, b\n}}\n"

    def worker(self, number: int) -> None:
        """A goroutine: a closure with its number as a parameter or held, which says at its end that it is done."""
        held = self.random.random() < 0.5
        if held:
            self.put(f"id{number} := {number}")
        self.put("go func() {" if held else f"go func(id{number} int) {{")
        self.depth += 1
        self.put("defer group.Done()")
        for _ in range(self.random.randint(1, 3)):
            self.action(2)
        self.put(f"results[id{number}] = {self.number()}")
        self.depth -= 1
        self.put("}()" if held else f"}}({number})")

    def action(self, level: int) -> None:
        simple = [self.change, self.change, self.locked, self.boxed, self.counted, self.sent, self.received, self.two_results, self.yielded]
        nested = [self.chosen, self.branch, self.loop, self.switched, self.closed]
        self.random.choice(simple + nested if level else simple)(level)

    def block(self, level: int, actions: int = 1) -> None:
        self.depth += 1
        for _ in range(actions):
            self.action(level - 1)
        self.depth -= 1

    # Actions.

    def change(self, _level: int) -> None:
        name = self.random.choice(("global", "shared", "box.value"))
        self.put(self.random.choice((f"{name}++", f"{name} += {self.number()}", f"{name} = {self.number()} + 1")))

    def locked(self, level: int) -> None:
        self.put("lock.Lock()")
        self.change(level)
        self.put("lock.Unlock()")

    def boxed(self, _level: int) -> None:
        self.put(self.random.choice((f"box.add({self.number()})", "box.on = !box.on", "shared = box.get()")))

    def counted(self, _level: int) -> None:
        self.put(f"atomic.AddInt64(&hits, {self.random.randint(1, 3)})")

    def sent(self, _level: int) -> None:
        self.put(f"{self.random.choice(NAMES)} <- {self.number()}")

    def received(self, _level: int) -> None:
        name = self.fresh("got")
        self.put(f"{name} := <-{self.random.choice(NAMES)}")
        self.put(f"global += {name}")

    def two_results(self, _level: int) -> None:
        name = self.fresh("twice")
        self.put(f"{name}, ok{name} := twice({self.number()})")
        self.put(f"if ok{name} {{")
        self.put(f"\tshared += {name}")
        self.put("}")

    def yielded(self, _level: int) -> None:
        self.put("runtime.Gosched()")

    def chosen(self, level: int) -> None:
        self.put("select {")
        name = self.fresh("got")
        self.put(f"case {name} := <-{self.random.choice(NAMES)}:")
        self.put(f"\tshared += {name}")
        self.put(f"case {self.random.choice(NAMES)} <- {self.number()}:")
        self.block(level)
        if self.random.random() < 0.6:
            self.put("default:")
            self.block(level)
        self.put("}")

    def branch(self, level: int) -> None:
        self.put(f"if {self.number()} > {self.random.randint(0, 3)} {{")
        self.block(level)
        if self.random.random() < 0.5:
            self.put("} else {")
            self.block(level)
        self.put("}")

    def loop(self, level: int) -> None:
        name = self.fresh("i")
        self.put(f"for {name} := 0; {name} < 2; {name}++ {{")
        self.block(level, self.random.randint(1, 2))
        self.put("}")

    def switched(self, level: int) -> None:
        self.put(f"switch {self.number()} {{")
        self.put("case 0, 1:")
        self.block(level)
        self.put("case 2:")
        self.block(level)
        self.put("default:")
        self.block(level)
        self.put("}")

    def closed(self, _level: int) -> None:
        if self.random.random() < 0.3:
            self.put(f"close({self.random.choice(NAMES)})")
        else:
            self.put("box.add(1)")


def go_source(seed: int) -> str:
    """The random program of a number."""
    return Source(seed).text()
