#!/usr/bin/env python3
"""The steps a second that workers take, and the time of an answer beside them.

    python3 -m tools.measure.workers [PROGRAM]      (bin/rewind)

Two goroutines, both started, count to 100,000 each, out of a grant for all of their steps, by one worker and by two, five rounds
by turns: prints the steps a second of each (the median of the rounds) and the ratio, which is to be at least 1, and as an aim
1.5. Then one worker counts in a source of 100 KB, and four count beside a desk that asks for a goroutine again and again: prints
the median time to its answer, which is to be at most 5 milliseconds. Times by the clock, so what else the machine does counts;
with fewer than two processors to spare two workers cannot be faster than one.
"""
import argparse
import os
import statistics
import subprocess
import sys
import tempfile
import time

COUNT = 100_000
ROUNDS = 5
GRANT = 1_000_000
LEAST, AIM, LATEST = 1.0, 1.5, 5.0

COUNTING = """package main

func count(n int, done chan int) {{
\tfor i := 0; i < n; i++ {{
\t}}
\tdone <- n
}}

func main() {{
\tdone := make(chan int)
{counts}}}
"""


IDLE = """
func idle{number}(a int, b int) int {{
\tx := a + b
\tfor i := 0; i < b; i++ {{
\t\tif x > i {{
\t\t\tx = x - a
\t\t}}
\t}}
\treturn x
}}
"""


def counting(goroutines: int, idle: int = 0) -> str:
    """A program of so many goroutines that count, with functions that nobody calls."""
    counts = f"\tgo count({COUNT}, done)\n" * goroutines + "\t<-done\n" * goroutines
    return COUNTING.format(counts=counts) + "".join(IDLE.format(number=number) for number in range(idle))


class Session:
    """A session beside workers, asked a line at a time."""

    def __init__(self, program: str, file: str, workers: int) -> None:
        words = [program, "--workers", str(workers), file]
        self.process = subprocess.Popen(words, stdin=subprocess.PIPE, stdout=subprocess.PIPE)

    def ask(self, line: bytes) -> list[bytes]:
        """The lines of the reply to a command; those that begin with a bar are told before the last one."""
        given, told = self.process.stdin, self.process.stdout
        assert given and told
        given.write(line + b"\n")
        given.flush()
        lines = [told.readline()]
        while lines[-1].startswith(b"|"):
            lines.append(told.readline())
        return lines

    def end(self) -> None:
        self.process.communicate(b"quit\n")


def start_all(session: Session, goroutines: int) -> None:
    """Steps `main` until it has started so many goroutines: no worker steps it while another goroutine has a step of its own."""
    while goroutines:
        if session.ask(b"step g0")[-1].endswith(b" go\n"):
            goroutines -= 1


def counted(program: str, file: str, goroutines: int, workers: int, pause: float) -> tuple[float, list[float]]:
    """The seconds until workers have taken every step, and those to each answer on the way."""
    session = Session(program, file, workers)
    answers: list[float] = []
    start_all(session, goroutines)
    begun = time.perf_counter()
    session.ask(f"free {GRANT}".encode())
    while True:
        asked = time.perf_counter()
        reply = session.ask(b"show g0")
        now = time.perf_counter()
        if reply[0].startswith(b"| g0 done"):
            break
        answers.append(now - asked)
        time.sleep(pause)
    session.end()
    return now - begun, answers


def steps_of(program: str, file: str) -> int:
    """How many steps the program takes in all."""
    reply = subprocess.run([program, file], input=b"run 1000000\n", capture_output=True, check=True).stdout
    return int(reply.split()[1])


def main() -> int:
    parser = argparse.ArgumentParser(description="The steps a second that workers take, and the time of an answer beside them.")
    parser.add_argument("program", nargs="?", default="bin/rewind")
    program = parser.parse_args().program
    with tempfile.TemporaryDirectory() as folder:
        file = os.path.join(folder, "count.go")
        with open(file, "w") as f:
            f.write(counting(2))
        steps = steps_of(program, file)
        rounds = [[counted(program, file, 2, workers, 0.002)[0] for workers in (1, 2)] for _ in range(ROUNDS)]
        one, two = (steps / statistics.median(times) for times in zip(*rounds))
        print(f"one worker: {one / 1e6:.2f} million steps a second; two: {two / 1e6:.2f}; {two / one:.2f} times as many "
              f"(at least {LEAST:.1f}, aim {AIM:.1f})")
        with open(file, "w") as f:
            f.write(counting(2, 850))
        large = steps / statistics.median(counted(program, file, 2, 1, 0.002)[0] for _ in range(ROUNDS))
        print(f"one worker in a source of 100 KB: {large / 1e6:.2f} million steps a second")
        with open(file, "w") as f:
            f.write(counting(4))
        answers = [seconds * 1e3 for _ in range(ROUNDS) for seconds in counted(program, file, 4, 4, 0)[1]]
        print(f"beside four workers: {len(answers)} answers, median {statistics.median(answers):.3f} ms (at most {LATEST:.1f}), "
              f"longest {max(answers):.3f} ms")
    return 0 if two >= LEAST * one and statistics.median(answers) <= LATEST else 1


if __name__ == "__main__":
    sys.exit(main())
