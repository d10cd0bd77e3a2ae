#!/usr/bin/env python3
"""The time and the memory of opening a source of 1 MiB, and the time of Go's own parser and type checker on the same text.

    python3 -m tools.measure.opening [PROGRAM]      (bin/rewind)

The program is a whole process each time, `PROGRAM --check`, and Go's front reads the text ten times in one run. Prints the least
time by the clock of each, and how many times as fast the program is. Takes `go` (golang-go of Debian).
"""
import argparse
import os
import shutil
import subprocess
import sys
import tempfile
import time

from tools.measure.core import BENCH, SOURCE_LIMIT, large_source, peak
from tools.measure.front import mixed

ROUNDS = 10
# How many times as fast as Go's front it is to be at least.
SOURCES = (("one long function", large_source, 2.0), ("functions of all forms", mixed, 2.5))
LEVELS = 150


def nested(size: int) -> str:
    """A source of blocks in blocks. Of the texts of 1 MiB that were tried, it takes the most memory."""
    head, line, tail = "package main\nfunc main() {\n", "{" * LEVELS + "}" * LEVELS + "\n", "}\n"
    return head + line * ((size - len(head) - len(tail)) // len(line)) + tail


def clock(command: list[str]) -> float:
    """The seconds by the clock of a process."""
    begun = time.perf_counter()
    subprocess.run(command, check=True)
    return time.perf_counter() - begun


def main() -> None:
    parser = argparse.ArgumentParser(description="The time and the memory of opening a source of 1 MiB, beside Go's own front.")
    parser.add_argument("program", nargs="?", default="bin/rewind")
    program = parser.parse_args().program
    if not shutil.which("go"):
        sys.exit("opening: go is not installed")
    with tempfile.TemporaryDirectory() as folder:
        front, file = os.path.join(folder, "front"), os.path.join(folder, "large.go")
        subprocess.run(["go", "build", "-o", front, os.path.join(BENCH, "go", "front.go")], check=True)
        for what, text, wanted in SOURCES:
            with open(file, "w", encoding="utf-8") as source:
                source.write(text(SOURCE_LIMIT))
            own = min(clock([program, "--check", file]) for _ in range(ROUNDS)) * 1e3
            other = float(subprocess.run([front, file], stdout=subprocess.PIPE, check=True, text=True).stdout)
            megabytes = peak([program, file]) / 1e6
            print(f"opening 1 MiB, {what}: {own:.0f} ms, {megabytes:.0f} MB; Go {other:.0f} ms; {other / own:.2f} times as fast "
                  f"(at least {wanted:.1f})", flush=True)
        with open(file, "w", encoding="utf-8") as source:
            source.write(nested(SOURCE_LIMIT))
        print(f"opening 1 MiB, blocks in blocks: {peak([program, file]) / 1e6:.0f} MB (at most 150)")


if __name__ == "__main__":
    main()
