#!/usr/bin/env python3
"""Loads of memory that wait for stores: what a program reads at once shortly after it wrote it in parts.

    python3 -m tools.measure.stalls [--steps N] [--most N] PROGRAM SOURCE      (3000 steps, 20 places)

A processor hands the bytes of a store to a load that follows, unless these bytes come of several stores: then the load
waits some twelve cycles, until they are in the cache. Structs that are put together in memory and then moved are read so.
Runs the program with `run N` in valgrind, and prints how many such loads a step makes, and the places of those that come up
most, each with the stores for which it waits. A place is a function of the program and an offset, where its symbols are there.
"""
from __future__ import annotations

import argparse
import bisect
import collections
import subprocess

# As many instructions as a store takes to reach the cache, about.
WINDOW = 60
FORGET = 5000
# Where valgrind puts a program that may lie anywhere.
BASE = 0x108000


class Trace:
    """The last stores of a program that runs, and the loads that waited for them."""

    def __init__(self) -> None:
        self.instructions, self.at, self.stores = 0, 0, 0
        self.written: dict[int, tuple[int, int, int]] = {}
        self.waited: collections.Counter[int] = collections.Counter()
        self.sources: dict[int, collections.Counter[tuple[int, ...]]] = collections.defaultdict(collections.Counter)

    def load(self, address: int, size: int) -> None:
        recent: set[tuple[int, int] | None] = set()
        for byte in range(address, address + size):
            number, instruction, place = self.written.get(byte, (0, -WINDOW, 0))
            recent.add((number, place) if self.instructions - instruction < WINDOW else None)
        if len(recent) > 1:
            self.waited[self.at] += 1
            self.sources[self.at][tuple(sorted({it[1] for it in recent if it}))] += 1

    def store(self, address: int, size: int) -> None:
        self.stores += 1
        for byte in range(address, address + size):
            self.written[byte] = (self.stores, self.instructions, self.at)
        if self.stores % FORGET == 0:
            self.written = {byte: it for byte, it in self.written.items() if self.instructions - it[1] < WINDOW}

    def read(self, line: str) -> None:
        """One line of the trace: an instruction, a load, a store, or both (` M`)."""
        kind = line[:2].strip()
        if kind not in ("I", "L", "S", "M"):
            return
        first, count = line[3:].split(",")
        address, size = int(first, 16), int(count)
        if kind == "I":
            self.at = address
            self.instructions += 1
            return
        if kind in "LM":
            self.load(address, size)
        if kind in "SM":
            self.store(address, size)


class Symbols:
    """The functions of a program, by their places."""

    def __init__(self, program: str) -> None:
        said = subprocess.run(["nm", "-C", program], stdout=subprocess.PIPE, stderr=subprocess.DEVNULL, text=True).stdout
        fields = (line.split(" ", 2) for line in said.splitlines())
        self.functions = sorted((int(it[0], 16), it[2]) for it in fields if len(it) == 3 and it[0] and it[1] in "tT")

    def name(self, place: int) -> str:
        found = bisect.bisect(self.functions, (place - BASE, "\x7f")) - 1
        if found < 0:
            return f"{place:x}"
        start, name = self.functions[found]
        return f"{name}+{place - BASE - start:x}"


def traced(program: str, source: str, steps: int) -> Trace:
    """The trace of a run of so many steps. Opening the program is traced too."""
    command = ["valgrind", "--tool=lackey", "--trace-mem=yes", "--log-fd=2", program, source]
    trace = Trace()
    with subprocess.Popen(command, stdin=subprocess.PIPE, stdout=subprocess.DEVNULL, stderr=subprocess.PIPE, text=True) as it:
        assert it.stdin and it.stderr
        it.stdin.write(f"run {steps}\nquit\n")
        it.stdin.close()
        for line in it.stderr:
            trace.read(line)
    return trace


def main() -> None:
    parser = argparse.ArgumentParser(description=__doc__.splitlines()[0])
    parser.add_argument("program")
    parser.add_argument("source")
    parser.add_argument("--steps", type=int, default=3000)
    parser.add_argument("--most", type=int, default=20)
    asked = parser.parse_args()
    trace, symbols = traced(asked.program, asked.source, asked.steps), Symbols(asked.program)
    print(f"{sum(trace.waited.values()) / asked.steps:.2f} loads a step wait for stores")
    for place, count in trace.waited.most_common(asked.most):
        stores = " ".join(symbols.name(it) for it in trace.sources[place].most_common(1)[0][0])
        print(f"{count / asked.steps:.2f} at {symbols.name(place)}, for the stores at {stores}")


main()
