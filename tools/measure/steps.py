#!/usr/bin/env python3
"""The time of a step, and of taking it back, in programs of 2,000 and of 20,000 statements.

    python3 -m tools.measure.steps [PROGRAM]      (bin/rewind)

Steps through each program and takes it all back, again and again, until both have served as many commands; prints
the processor time of a command, and the ratio, which is to be at most 1.5: neither the length of the log nor that
of the program counts. The time of opening the program is measured apart and taken off.
"""
import argparse
import os
import resource
import subprocess
import sys
import tempfile

SIZES = (2_000, 20_000)
STEPS = 200_000
ROUNDS = 5
LIMIT = 1.5


def source(statements: int) -> str:
    lines = ["package main", "func main() {", "\tx, y := 1, 2"]
    lines += ["\tx, y = y, x+y*3" if k % 2 else "\tprintln(x, y)" for k in range(statements - 1)]
    return "\n".join(lines + ["}", ""])


def processor_time(command: list[str], script: bytes) -> float:
    before = resource.getrusage(resource.RUSAGE_CHILDREN)
    subprocess.run(command, input=script, stdout=subprocess.DEVNULL, check=True)
    after = resource.getrusage(resource.RUSAGE_CHILDREN)
    return after.ru_utime + after.ru_stime - before.ru_utime - before.ru_stime


def least(command: list[str], script: bytes) -> float:
    return min(processor_time(command, script) for _ in range(ROUNDS))


def main() -> int:
    parser = argparse.ArgumentParser(description="The time of a step, and of taking it back, in short and in long programs.")
    parser.add_argument("program", nargs="?", default="bin/rewind")
    program = parser.parse_args().program
    each: list[float] = []
    for statements in SIZES:
        with tempfile.TemporaryDirectory() as folder:
            file = os.path.join(folder, "program.go")
            with open(file, "w") as f:
                f.write(source(statements))
            script = (b"step g0\n" * statements + b"undo\n" * statements) * (STEPS // statements)
            opening = least([program, file], b"")
            each.append((least([program, file], script) - opening) / (2 * STEPS) * 1e6)
        print(f"{statements:6} statements: {each[-1]:.3f} microseconds a command (opening: {opening * 1e3:.1f} ms)")
    ratio = each[1] / each[0]
    print(f"ratio: {ratio:.2f} (at most {LIMIT:.1f})")
    return 0 if ratio <= LIMIT else 1


if __name__ == "__main__":
    sys.exit(main())
