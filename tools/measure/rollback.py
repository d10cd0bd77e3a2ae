#!/usr/bin/env python3
"""The time of taking steps back with their consequences, of taking them again, and of what is asked about dependence.

    python3 -m tools.measure.rollback [PROGRAM..]      (bin/rewind)

The log has 1,000,000 steps, of two goroutines by turns that do not depend on each other; k of one's steps are taken back from
between those of the other and taken again. `deps` and `causes` ask for the first and the last step. An order moves the first step
of a goroutine behind half of the other's in a log of 100,000 steps. Processor time of whole processes, best of three, with what
comes before taken off. The programs take turns, and have to answer the same bytes.
"""
import argparse
import os
from collections.abc import Iterator

from tools.measure.core import PROGRAMS, once

ROUNDS = 3
STEPS = 1_000_000
FILE = os.path.join(PROGRAMS, "two_loops.go")
RUN = f"run {STEPS}\n".encode()


def order(steps: int) -> list[bytes]:
    """A run of so many steps, and an order that moves the child's first step behind half of the steps of `g0`."""
    half = steps // 2
    mine = [f"g0#{n}".encode() for n in range(1, half + 1)]
    others = [f"g0.1#{n}".encode() for n in range(1, steps - half + 1)]
    names = mine[:half // 2]
    for pair in zip(mine[half // 2:], others):
        names += pair
    return names + others[half - half // 2:]


def rows() -> Iterator[tuple[str, bytes, bytes, int]]:
    for k in (1, 1000, 100_000, 400_000):
        yield f"back and redo, k = {k}", RUN, f"back g0.1#{500_000 - k + 1}\nredo\n".encode(), k
    yield "back of all", RUN, b"back g0#1\n", STEPS
    yield "deps of the first step", RUN, b"deps g0#1\n", STEPS
    yield "causes of the last step", RUN, b"causes g0#500000\n", STEPS // 2
    small = 100_000
    yield "order of 100,000", f"run {small}\n".encode(), b"order " + b" ".join(order(small)) + b"\n", small


def main() -> None:
    parser = argparse.ArgumentParser(description="The time of taking steps back with their consequences, and of what is asked.")
    parser.add_argument("programs", nargs="*", default=["bin/rewind"])
    programs = parser.parse_args().programs
    print(f"{'work':26} {'steps':>10}  {'ms'.rjust(10) * len(programs)}")
    for name, before, work, steps in rows():
        times: list[list[float]] = [[] for _ in programs]
        outputs = set()
        for _ in range(ROUNDS):
            for i, program in enumerate(programs):
                start = once([program, FILE], before)
                whole = once([program, FILE], before + work)
                times[i].append(whole[0] - start[0])
                outputs.add(whole[1])
        told = "".join(f"{min(it) * 1e3:10.1f}" for it in times)
        print(f"{name:26} {steps:10}  {told}{'' if len(outputs) == 1 else '  answers differ'}")


if __name__ == "__main__":
    main()
