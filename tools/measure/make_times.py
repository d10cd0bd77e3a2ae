#!/usr/bin/env python3
"""How long `make` takes from nothing, and on which functions and proof files.

    python3 -m tools.measure.make_times [--here FOLDER] [--table FILE]

Runs `make` in a fresh clone of this repository at HEAD, or in the clone FOLDER. Prints, and writes as Markdown where --table
names a file, the minutes by the clock, the processor minutes, and what tools/measure/slowest.py tells of the crates. The
toolchain goes on from checks that other clones keep, so none may be on the machine.
"""
from __future__ import annotations

import argparse
import glob
import os
import resource
import subprocess
import sys
import tempfile
import time

from tools.measure.figures import TOP, origin


def timed(folder: str) -> tuple[float, float, int]:
    """The minutes by the clock and the processor minutes of `make` in a clone, and its status."""
    started = time.monotonic()
    status = subprocess.run(["make"], cwd=folder, stdin=subprocess.DEVNULL).returncode
    usage = resource.getrusage(resource.RUSAGE_CHILDREN)
    return (time.monotonic() - started) / 60, (usage.ru_utime + usage.ru_stime) / 60, status


def slowest(folder: str) -> str:
    """The tables of what took longest, by the tool of this checkout."""
    crates = [os.path.dirname(it) for it in sorted(glob.glob(f"{folder}/crates/*/out"))]
    ran = subprocess.run([f"{TOP}/tools/measure/slowest.py", *crates], stdout=subprocess.PIPE, text=True, check=True)
    return ran.stdout.strip()


def markdown(folder: str, clock: float, processor: float) -> str:
    lines = ["# The proofs of the program", "", "Written by `make make-times`.", "", origin(), ""]
    lines += ["| `make` from nothing | Minutes |", "|---|---|"]
    lines += [f"| by the clock | {clock:.1f} |", f"| of processors | {processor:.1f} |", ""]
    lines += ["What took longest, in seconds. A check that several processes share tells more than each part takes alone. The "
              "first function that calls one of a crate below has the loading of that crate's proofs, too.", ""]
    return "\n".join([*lines, slowest(folder), ""])


def measure(folder: str, table: str | None) -> int:
    clock, processor, status = timed(folder)
    if status:
        return 1
    text = markdown(folder, clock, processor)
    print(text, end="")
    if table:
        with open(table, "w", encoding="utf-8") as file:
            file.write(text)
    return 0


def main() -> int:
    options = argparse.ArgumentParser(description="Tells how long `make` takes from nothing.")
    options.add_argument("--here", metavar="FOLDER", help="run in this clone, in place of a fresh one")
    options.add_argument("--table", metavar="FILE", help="write the table here, as Markdown")
    given = options.parse_args()
    if given.here:
        return measure(given.here, given.table)
    with tempfile.TemporaryDirectory(prefix="make-") as room:
        clone = os.path.join(room, "clone")
        subprocess.run(["git", "clone", "--quiet", TOP, clone], check=True)
        return measure(clone, given.table)


sys.exit(main())
