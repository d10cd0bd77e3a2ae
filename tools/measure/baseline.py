#!/usr/bin/env python3
"""Streams of commands, answered by a program and by a baseline by turns.

    python3 -m tools.measure.baseline [--rounds N] BASELINE [PROGRAM]      (9 rounds, bin/rewind)

BASELINE takes the same commands and answers the same bytes: a plain program, say, that is not proved and has no threads. Prints
for each stream the processor time of a step or line in both, best of the rounds, with what comes before it taken off; the bytes
that each step keeps; and how many times as long as BASELINE the program takes, beside what is wanted at most.
"""
import argparse
import os
import re
from collections.abc import Iterator

from tools.measure.core import FIRST, PROGRAMS, RUN, once, peak

# The programs that are run, and how many times as long as BASELINE each may take.
RUNS = {"loop": 1.6, "loop_in_a_child": 1.6, "hand_to_hand": 2.0, "through_a_buffer": 2.0, "in_a_select": 2.0,
        "many_goroutines": 2.0, "recursion": 2.0, "deep_calls": 2.0}
LINES = 400_000
# What is done, by which program, what comes before, the lines, how many steps or lines they are, and what is wanted at most.
Stream = tuple[str, str, bytes, bytes, int, float]
MISSED = "more than wanted"


def steps_of(program: str, name: str, lines: bytes) -> int:
    """How many steps the last of these lines takes, or names."""
    return int(re.findall(rb"^ok (\d+)", once([program, file_of(name)], lines)[1], re.MULTILINE)[-1])


def file_of(name: str) -> str:
    return os.path.join(PROGRAMS, name + ".go")


def streams(program: str) -> Iterator[Stream]:
    """The streams that are compared."""
    loop, hand = (steps_of(program, name, RUN) for name in ("loop", "hand_to_hand"))
    for name, wanted in RUNS.items():
        yield name.replace("_", " "), name, FIRST, RUN, steps_of(program, name, RUN), wanted
    yield "lines `step g0`", "loop", FIRST, b"step g0\n" * LINES, LINES, 1.5
    yield "lines `undo`", "loop", RUN, b"undo\n" * loop, loop, 1.5
    yield "lines `undo`, hand to hand", "hand_to_hand", RUN, b"undo\n" * hand, hand, 1.5
    yield "`back` of all", "loop", RUN, b"back g0#1\n", loop, 2.0
    yield "`back` and `redo` of all", "loop", RUN, b"back g0#1\nredo\n" * 3, 3 * loop, 2.0
    yield "`back` of all, hand to hand", "hand_to_hand", RUN, b"back g0#1\n", hand, 2.0
    for k, times in ((1000, 200), (100_000, 10), (400_000, 3)):
        lines = (b"back g0.1#%d\nredo\n" % (500_001 - k)) * times
        yield f"`back` and `redo` of {k:,} among 1,000,000", "two_loops", RUN, lines, times * k, 2.0
    yield "`deps` of the first step", "loop", RUN, b"deps g0#1\n" * 3, 3 * loop, 2.0
    causes = b"causes g0#200000\n"
    named = steps_of(program, "hand_to_hand", RUN + causes)
    yield "`causes` of a late step, hand to hand", "hand_to_hand", RUN, causes * 3, 3 * named, 2.0
    yield "`log`, hand to hand", "hand_to_hand", RUN, b"log\n" * 3, 3 * hand, 2.0


def least_times(programs: list[str], file: str, before: bytes, lines: bytes, rounds: int) -> list[list[float]]:
    """For each program the least time of what comes before, and of all, where they answer the same."""
    best = [[float("inf")] * 2 for _ in programs]
    for _ in range(rounds):
        answers: set[bytes] = set()
        for own, program in zip(best, programs):
            for part, script in enumerate((before, before + lines)):
                time, answer = once([program, file], script)
                own[part] = min(own[part], time)
            answers.add(answer)
        if len(answers) > 1:
            raise SystemExit(f"baseline: the two answer {file} in different ways")
    return best


def kept(program: str, file: str, steps: int) -> float:
    """The bytes that a step of a run keeps."""
    return (peak([program, file], RUN) - peak([program, file], FIRST)) / steps


def main() -> None:
    parser = argparse.ArgumentParser(description="Streams of commands, answered by a program and by a baseline by turns.")
    parser.add_argument("--rounds", type=int, default=9)
    parser.add_argument("baseline")
    parser.add_argument("program", nargs="?", default="bin/rewind")
    asked = parser.parse_args()
    programs = [asked.baseline, asked.program]
    for what, name, before, lines, count, wanted in streams(asked.program):
        base, own = least_times(programs, file_of(name), before, lines, asked.rounds)
        sizes = [kept(program, file_of(name), count) for program in programs] if lines == RUN else []
        ratio = own[1] / base[1]
        nanoseconds = [(it[1] - it[0]) / count * 1e9 for it in (own, base)]
        told = f"{what}: {nanoseconds[0]:.0f} ns, baseline {nanoseconds[1]:.0f} ns"
        told += f"; {sizes[1]:.1f} bytes, baseline {sizes[0]:.1f}" if sizes else ""
        missed = f": {MISSED}" if ratio > wanted else ""
        print(f"{told}; {ratio:.2f} times as long (at most {wanted:.1f}{missed})", flush=True)


if __name__ == "__main__":
    main()
