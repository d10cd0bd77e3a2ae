#!/usr/bin/env python3
"""The time and memory of a step, forward and back, of the programs in bench/programs.

    python3 -m tools.measure.core [PROGRAM]      (bin/rewind)

Each row is one run of up to 1,000,000 steps, in a process of its own: the processor time of a step, with what opening
costs taken off, and the bytes that the process grew by for each step that it keeps. With `undo` all steps are taken
back after that, by a command each.
"""
import argparse
import os
import re
import subprocess
import sys
import tempfile

BENCH = os.path.join(os.path.dirname(os.path.dirname(os.path.dirname(os.path.realpath(__file__)))), "bench")
PROGRAMS = os.path.join(BENCH, "programs")
NAMES = ("loop", "loop_in_a_child", "hand_to_hand", "through_a_buffer", "in_a_select", "many_goroutines", "turns",
         "recursion", "deep_calls")
ROUNDS = 3
RUN = b"run 1000000\n"
FIRST = b"run 1\n"
SOURCE_LIMIT = 1_048_576


def once(command: list[str], script: bytes) -> tuple[float, bytes]:
    """The processor seconds and the output of one process."""
    with tempfile.TemporaryFile() as lines, tempfile.TemporaryFile() as replies:
        lines.write(script)
        lines.seek(0)
        process = subprocess.Popen(command, stdin=lines, stdout=replies)
        _, status, used = os.wait4(process.pid, 0)
        process.returncode = os.waitstatus_to_exitcode(status)
        if process.returncode:
            sys.exit(f"{' '.join(command)} ended with status {process.returncode}")
        replies.seek(0)
        return used.ru_utime + used.ru_stime, replies.read()


def peak(command: list[str], line: bytes = b"?\n") -> int:
    """The peak bytes of resident memory of a process that has answered a line.

    It is asked while the process lives: of one that has ended, the peak is at least that of the process that began it.
    """
    with subprocess.Popen(command, stdin=subprocess.PIPE, stdout=subprocess.PIPE) as process:
        assert process.stdin and process.stdout
        process.stdin.write(line)
        process.stdin.flush()
        process.stdout.readline()
        with open(f"/proc/{process.pid}/status", encoding="utf-8") as status:
            kilobytes = int(re.findall(r"VmHWM:\s+(\d+) kB", status.read())[0])
        process.stdin.close()
    return kilobytes * 1024


def least(command: list[str], script: bytes) -> tuple[float, bytes]:
    runs = [once(command, script) for _ in range(ROUNDS)]
    return min(r[0] for r in runs), runs[0][1]


def row(name: str, command: list[str]) -> None:
    start = least(command, FIRST)
    forward = least(command, RUN)
    steps = int(re.findall(rb"ok (\d+)", forward[1])[0])
    back = least(command, RUN + b"undo\n" * steps)
    size = (peak(command, RUN) - peak(command, FIRST)) / steps
    step, undo = (forward[0] - start[0]) / steps * 1e9, (back[0] - forward[0]) / steps * 1e9
    print(f"{name:18} {steps:8} {step:10.0f} {undo:10.0f} {size:10.1f}")


def large_source(size: int) -> str:
    """A source of one long function, of at most this many bytes."""
    head, line, tail = "package main\nfunc main() {\n\ta, b := 1, 2\n", "\ta, b = b, a+b*3-(b/2+1)\n", "}\n"
    return head + line * ((size - len(head) - len(tail)) // len(line)) + tail


def main() -> None:
    parser = argparse.ArgumentParser(description="The time and memory of a step, forward and back.")
    parser.add_argument("program", nargs="?", default="bin/rewind")
    program = parser.parse_args().program
    print(f"{'program':18} {'steps':>8} {'ns a step':>10} {'ns an undo':>10} {'bytes':>10}")
    for name in NAMES:
        row(name, [program, os.path.join(PROGRAMS, name + ".go")])


if __name__ == "__main__":
    main()
