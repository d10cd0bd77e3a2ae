#!/usr/bin/env python3
"""Where the instructions of a step go: how many a step takes, and the part of each crate in it.

    python3 -m tools.measure.instructions [PROGRAM]      (bin/rewind)

Counts with valgrind, so the figures do not depend on what else the machine does. A crate's part holds what the compiler copied
into its functions of others. What takes less than a twentieth stands together at the end. The last row is of opening a source.
"""
import argparse
import collections
import os
import re
import shutil
import subprocess
import sys
import tempfile

from tools.measure.core import FIRST, PROGRAMS, large_source

NAMES = ("loop", "hand_to_hand", "through_a_buffer", "in_a_select", "recursion")
STEPS = 100_000
SMALL = 128 * 1024
LEAST = 0.05
# How many instructions each crate takes, or a library.
Counts = collections.Counter[str]


def part_of(function: str) -> str:
    """The crate of a function, or the library that it is of."""
    crate = re.match(r"\W*(\w+)::", function)
    if not crate:
        return "the C library"
    return crate[1] if crate[1].startswith(("gr_", "rewind")) else "other libraries"


def instructions(command: list[str], script: bytes) -> Counts:
    """How many instructions of each part a process takes."""
    with tempfile.TemporaryDirectory() as folder:
        out = os.path.join(folder, "out")
        valgrind = ["valgrind", "--tool=callgrind", f"--callgrind-out-file={out}"]
        subprocess.run([*valgrind, *command], input=script, stdout=subprocess.DEVNULL, stderr=subprocess.DEVNULL, check=True)
        annotate = ["callgrind_annotate", "--threshold=100", out]
        told = subprocess.run(annotate, stdout=subprocess.PIPE, text=True, check=True).stdout
    counts: Counts = collections.Counter()
    for count, function in re.findall(r"^ *([\d,]+) \([ \d.]+%\)  [^:\n]*:(.*)$", told, re.MULTILINE):
        counts[part_of(function)] += int(count.replace(",", ""))
    return counts


def tell(what: str, unit: str, counts: Counts, many: int) -> None:
    whole = sum(counts.values())
    large = [(part, count) for part, count in counts.most_common() if count >= LEAST * whole]
    rest = whole - sum(count for _, count in large)
    parts = [f"{part} {100 * count / whole:.0f}%" for part, count in [*large, ("others", rest)]]
    print(f"{what}: {whole / many:.0f} instructions a {unit}: {', '.join(parts)}", flush=True)


def main() -> None:
    parser = argparse.ArgumentParser(description="How many instructions a step takes, and the part of each crate in it.")
    parser.add_argument("program", nargs="?", default="bin/rewind")
    program = parser.parse_args().program
    if not shutil.which("valgrind"):
        sys.exit("instructions: valgrind is not installed")
    for name in NAMES:
        command = [program, os.path.join(PROGRAMS, name + ".go")]
        counts = instructions(command, f"run {STEPS}\n".encode())
        counts.subtract(instructions(command, FIRST))
        tell(name.replace("_", " "), "step", counts, STEPS)
    with tempfile.NamedTemporaryFile("w", suffix=".go") as file:
        file.write(large_source(SMALL))
        file.flush()
        tell("opening 128 KiB", "byte", instructions([program, "--check", file.name], b""), SMALL)


if __name__ == "__main__":
    main()
