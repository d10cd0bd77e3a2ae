#!/usr/bin/env python3
"""Times the targets that need no proofs, on two processors, in fresh clones of what is committed.

    python3 -m tools.measure.times

Prints a table, with the machine, the date and the commit under it.
"""
import datetime
import os
import subprocess
import sys
import tempfile
import time

from tools import kit

# Each list is timed in a clone of its own.
TARGETS = [["demo", "test"], ["quick"], ["quick-page"]]
PROCESSORS = 2


def output(*words: str) -> str:
    return subprocess.run(words, cwd=kit.ROOT, stdout=subprocess.PIPE, text=True, check=True).stdout.strip()


def model() -> str:
    with open("/proc/cpuinfo", encoding="utf-8") as lines:
        return next(line.partition(":")[2].strip() for line in lines if line.startswith("model name"))


def timed(target: str, clone: str) -> tuple[float, str]:
    """The seconds that a target takes, and its last line."""
    start = time.monotonic()
    words = ["make", target]
    ran = subprocess.run(words, cwd=clone, stdin=subprocess.DEVNULL, stdout=subprocess.PIPE, stderr=subprocess.STDOUT, text=True)
    if ran.returncode:
        sys.stderr.write(ran.stdout[-2000:])
        kit.fail(f"'make {target}' ended with status {ran.returncode}")
    return time.monotonic() - start, ran.stdout.rstrip().splitlines()[-1]


def main() -> None:
    kit.folder()
    os.sched_setaffinity(0, sorted(os.sched_getaffinity(0))[:PROCESSORS])
    print("| Target | Seconds | Last line |\n|---|---|---|")
    for targets in TARGETS:
        with tempfile.TemporaryDirectory(prefix="rewind-times-") as room:
            subprocess.run(["git", "clone", "--quiet", kit.ROOT, room], check=True)
            for target in targets:
                seconds, last = timed(target, room)
                print(f"| `make {target}` | {seconds:.0f} | {last} |", flush=True)
    commit = output("git", "rev-parse", "--short", "HEAD")
    print(f"\n{PROCESSORS} processors of {model()}, {datetime.date.today()}, commit {commit}")


main()
