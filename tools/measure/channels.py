#!/usr/bin/env python3
"""The time of a step over a channel and its undoing, with few items in its buffer and with many.

    python3 -m tools.measure.channels [PROGRAM]      (bin/rewind)

A goroutine sends to a buffer of 1,000,000 places and receives from it by turns, once with no other item in the buffer, and
once with 100,000. Prints the processor time of such a step with its undoing by `back`, and the ratio, which is to be at
most 2: the number of items does not count. What comes before is measured apart and taken off.
"""
import argparse
import os
import sys
import tempfile

from tools.measure.core import least

ITEMS = 100_000
# What a first loop does as often: nothing, or it fills the buffer.
CASES = {0: "_ = i", ITEMS: "c <- i"}
# A `make`, the start of the loop, three steps each time, and the last test.
BEFORE = 2 + 3 * ITEMS + 1
STEPS = 600_000
LIMIT = 2.0
SOURCE = """package main

func main() {{
\tc := make(chan int, 1000000)
\tfor i := 0; i < {items}; i++ {{
\t\t{what}
\t}}
\tfor {{
\t\tc <- 1
\t\t<-c
\t}}
}}
"""


def seconds(program: str, what: str) -> float:
    """The processor seconds of a step over the channel and its undoing."""
    with tempfile.NamedTemporaryFile("w", suffix=".go") as file:
        file.write(SOURCE.format(items=ITEMS, what=what))
        file.flush()
        first = f"run {BEFORE}\n".encode()
        before, _ = least([program, file.name], first)
        script = first + f"run {STEPS}\nback g0#{BEFORE + 1}\n".encode()
        after, replies = least([program, file.name], script)
    if not replies.splitlines()[-1].startswith(f"ok {STEPS} ".encode()):
        sys.exit(f"channels: {STEPS} steps are not taken back: {replies.splitlines()[-1][:100]!r}")
    return (after - before) / STEPS


def main() -> int:
    parser = argparse.ArgumentParser(description="The time of a step over a channel, with few items in its buffer and with many.")
    parser.add_argument("program", nargs="?", default="bin/rewind")
    program = parser.parse_args().program
    each = [seconds(os.path.abspath(program), what) for what in CASES.values()]
    for items, time in zip(CASES, each):
        print(f"beside {items:,} items: {time * 1e6:.3f} microseconds a step and its undoing")
    ratio = each[1] / each[0]
    print(f"ratio: {ratio:.2f} (at most {LIMIT:.1f})")
    return 0 if ratio <= LIMIT else 1


if __name__ == "__main__":
    sys.exit(main())
