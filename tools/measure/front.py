#!/usr/bin/env python3
"""The time of checking sources of 128 KiB and of 1 MiB.

    python3 -m tools.measure.front [PROGRAM]      (bin/rewind)

Three kinds of source: wide (thousands of functions, and of variables in one scope), deep (blocks and parentheses, 90
levels of each) and mixed (all forms of statements). Prints for each the MiB a second of `--check`, and the ratio of the
times of the two sizes, which is to be at most 10 where the text is 8 times as long. The time of starting the program is
measured apart and taken off.
"""
import argparse
import os
import sys
import tempfile
from collections.abc import Callable

from tools.measure.core import once

SIZES = (128 * 1024, 1024 * 1024)
REPEATS = 15
LIMIT = 10.0

MAIN = "func main() {\n\tprintln(1)\n}\n"


def filled(size: int, piece: Callable[[int], str]) -> str:
    """A file of about this size, made of numbered pieces."""
    parts = ["package main\n"]
    length = len(parts[0]) + len(MAIN)
    number = 0
    while True:
        text = piece(number)
        if length + len(text) > size:
            return "".join(parts) + MAIN
        parts.append(text)
        length += len(text)
        number += 1


def wide(size: int) -> str:
    """Half of the text is short functions, half one function with as many variables."""
    functions = filled(size // 2, lambda n: f"func f{n}(a, b int) int {{ return a + b*{n} }}\n")
    lines = ["func g() {\n\tv0 := 1\n"]
    length = len(lines[0]) + 3
    number = 1
    while True:
        text = f"\tv{number} := v{number - 1} + f{number % 100}(v{number // 2}, {number})\n"
        if length + len(text) > size // 2:
            return functions + "".join(lines) + "}\n"
        lines.append(text)
        length += len(text)
        number += 1


def deep(size: int) -> str:
    def piece(n: int) -> str:
        levels = 90
        opening = "".join(f"\t{{\n\t\tx{k + 1} := x{k}\n" for k in range(levels))
        inner = f"\t\tprintln({'(' * levels}x{levels}{')' * levels})\n"
        return f"func f{n}() {{\n\tx0 := {n}\n" + opening + inner + "\t}\n" * levels + "}\n"
    return filled(size, piece)


def mixed(size: int) -> str:
    def piece(n: int) -> str:
        return f"""func f{n}(in <-chan int, out chan<- int, limit int) int {{
\tvar sum, count = 0, 0x{n:x}
outer:
\tfor i := 0; i < limit && sum >= 0; i++ {{
\t\tselect {{
\t\tcase v, ok := <-in:
\t\t\tif !ok {{
\t\t\t\tbreak outer
\t\t\t}} else if v % 2 == 0 {{
\t\t\t\tsum += v << 1 // an even one counts twice
\t\t\t}} else {{
\t\t\t\tsum, count = sum+v, count+1
\t\t\t}}
\t\tcase out <- sum*2 - (count | 1):
\t\t\tprintln("sent", sum, count == {n})
\t\tdefault:
\t\t\tcontinue outer
\t\t}}
\t}}
\tc := make(chan int, 3)
\tgo f{n // 2}(c, c, limit-1)
\tfor w := range c {{
\t\tsum -= w
\t}}
\tclose(c)
\treturn sum
}}
"""
    return filled(size, piece)


def least(program: str, text: str) -> float:
    """The least processor seconds of a check of this text."""
    with tempfile.NamedTemporaryFile("w", suffix=".go") as file:
        file.write(text)
        file.flush()
        return min(once([program, "--check", file.name], b"")[0] for _ in range(REPEATS))


def main() -> int:
    parser = argparse.ArgumentParser(description="The time of checking sources of 128 KiB and of 1 MiB.")
    parser.add_argument("program", nargs="?", default="bin/rewind")
    program = os.path.abspath(parser.parse_args().program)
    starting = least(program, "package main\n" + MAIN)
    worst = 0.0
    for kind in (wide, deep, mixed):
        times: list[float] = []
        for size in SIZES:
            text = kind(size)
            times.append(least(program, text) - starting)
            print(f"{kind.__name__:5} {len(text) // 1024:4} KiB: {len(text) / 2**20 / times[-1]:.1f} MiB/s")
        ratio = times[1] / times[0]
        print(f"{kind.__name__:5} ratio: {ratio:.2f} (at most {LIMIT:.1f})")
        worst = max(worst, ratio)
    return 0 if worst <= LIMIT else 1


if __name__ == "__main__":
    sys.exit(main())
