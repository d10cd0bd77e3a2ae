#!/usr/bin/env python3
"""Runs the benches and writes their figures as one table, with the machine, the date and the commit.

    python3 -m tools.measure.results [--out FILE] [--only BENCH] [--baseline PROGRAM]      (bench/RESULTS.md, all benches)

Takes bin/rewind. Figures depend on what else the machine does: leave it alone. With `--baseline` it is compared with another
program that takes the same commands, too.
"""
from __future__ import annotations

import argparse
import os
import re
import subprocess
import sys

from tools.measure.figures import origin, told

HERE = os.path.dirname(os.path.realpath(__file__))
TOP = os.path.dirname(os.path.dirname(HERE))

BENCHES = ("steps", "core", "instructions", "opening", "rollback", "workers", "channels", "front", "baseline")
PROGRAM = f"{TOP}/bin/rewind"
HEAD = "\n".join((
    "# Measurements", "",
    "Written by `make bench`. Times are of processors and not by the clock, but for those of `opening` and `workers`. "
    "The rows of `instructions` say how many a step takes, and in which crate. "
    "Where the machine is shared with others, the times of two runs may differ by a half, and the counts do not.", "",
    "The rows of `baseline` compare with a plain program that takes the same commands. "
    "It has no proofs and no threads, and is no part of this repository: `make bench BASELINE=PROGRAM`.", "",
    "{origin}", "",
    "| Bench | What | Figure |", "|---|---|---|", ""))


def row_of_core(line: str) -> tuple[str, str]:
    """A program with its time a step, its time an undo, and its bytes."""
    name, steps, step, undo, size = line.split()
    return name.replace("_", " "), f"{step} ns a step, {undo} ns an undo, {size} bytes a step ({steps} steps)"


def row_of_rollback(line: str) -> tuple[str, str]:
    """Work on a log, and its time."""
    what, steps, milliseconds = re.findall(r"(.+?)\s{2,}(\d+)\s+(-?[\d.]+)$", line)[0]
    time = f"{milliseconds} ms" if float(milliseconds) >= 1 else "under 1 ms"
    return what, f"{time} ({steps} {'step' if steps == '1' else 'steps'})"


def row(bench: str, line: str) -> tuple[str, str] | None:
    """What a line of a bench tells, and its figure. A heading is none."""
    if bench == "core" and len(line.split()) == 5 and line.split()[1].isdigit():
        return row_of_core(line)
    if bench == "rollback" and re.search(r"\d\s+-?[\d.]+$", line):
        return row_of_rollback(line)
    what, colon, figure = line.partition(": ")
    return (" ".join(what.split()), figure.strip()) if colon else None


def rows(bench: str, *before: str) -> tuple[list[tuple[str, str, str]], int]:
    """The rows of a bench, which is given these words before its program. Its status is 1 where a limit is missed."""
    done = subprocess.run([f"{HERE}/{bench}.py", *before, PROGRAM], stdout=subprocess.PIPE, text=True)
    print(done.stdout, end="", flush=True)
    found = [row(bench, line) for line in done.stdout.splitlines()]
    return [(bench, *it) for it in found if it], done.returncode


def main() -> int:
    parser = argparse.ArgumentParser(description=__doc__.splitlines()[0])
    parser.add_argument("--out", default=f"{TOP}/bench/RESULTS.md")
    parser.add_argument("--only", choices=BENCHES)
    parser.add_argument("--baseline", metavar="PROGRAM")
    asked = parser.parse_args()
    if not os.access(PROGRAM, os.X_OK):
        sys.exit("results: there is no bin/rewind: run make first")
    text: list[str] = []
    status = 0
    for bench in [asked.only] if asked.only else BENCHES:
        if bench == "baseline" and not asked.baseline:
            continue
        found, missed = rows(bench, *([asked.baseline] if bench == "baseline" else []))
        text += [f"| {' | '.join(it)} |\n" for it in found]
        status = status or missed
    with open(asked.out, "w", encoding="utf-8") as file:
        file.write(HEAD.format(origin=origin(Program=told(PROGRAM, "--version"))) + "".join(text))
    return status


if __name__ == "__main__":
    sys.exit(main())
