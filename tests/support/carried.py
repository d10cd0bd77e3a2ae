"""Programs of Go, carried over, and their outcomes beside those of Go."""
from __future__ import annotations

import os
import subprocess
from collections import Counter
from collections.abc import Iterable, Sequence
from pathlib import Path
from typing import NamedTuple, Optional

import pytest
from rewind_client.finding import start
from rewind_client.program import read_program
from rewind_hunt.schedules import End, Manner, Scheduler

from support.places import TOP

CARRY = TOP / "bin" / "rewind-carry"
MOST_STEPS = 6000
LONGEST_BURST = 600
RUN_SECONDS = 3
ASLEEP = "fatal error: all goroutines are asleep - deadlock!"


class Outcome(NamedTuple):
    """How a run ended, and its lines, sorted: `ended`, `stuck`, or `stopped` by a panic, or by the program itself."""

    end: str
    lines: tuple[str, ...]

    def told(self) -> str:
        return " / ".join((self.end, *self.lines))

    def stands_for(self, of_go: Outcome) -> bool:
        """Whether it is the outcome of a run of Go. What is deferred runs there before a panic stops the program, and others go on
        meanwhile: some lines more may be printed, and `main` may even return first.
        """
        is_stopped = self.end == "stopped" and of_go.end != "stuck"
        return self == of_go or (is_stopped and not Counter(self.lines) - Counter(of_go.lines))


def outcome(end: str, lines: list[str]) -> Outcome:
    """An outcome. Blanks between the parts of a line are not compared, since println sets its values apart."""
    return Outcome(end, tuple(sorted("".join(line.split()) for line in lines)))


def carried(path: Path, to: Path, *options: str) -> subprocess.CompletedProcess[str]:
    """Carries a source over."""
    return subprocess.run([CARRY, path, "-o", to, *options], capture_output=True, text=True, timeout=20, check=False)


class Coarse(Scheduler):
    """Takes schedules in bursts of very different lengths, and by ranks: in a run of Go few goroutines are interrupted."""

    def manner_of(self, number: int) -> Manner:
        return (super().manner_of(number), Manner.BURSTS, Manner.RANKS)[number % 3]

    def burst(self, names: Sequence[str]) -> Iterable[str]:
        name = self.random.choice(names)
        return [self.step(name) for _ in range(int(LONGEST_BURST ** self.random.random()))]


class Schedules:
    """Random schedules of a carried program, as outcomes."""

    def __init__(self, program: str, path: Path, kind: type[Scheduler] = Scheduler) -> None:
        self.scheduler = kind(lambda: start(program, str(path)), read_program(str(path)), 1, MOST_STEPS)

    def outcome(self, number: int) -> Optional[Outcome]:
        """The outcome of a schedule, or None where it does not end soon."""
        schedule = self.scheduler.take(number)
        if schedule.end is End.UNENDED:
            return None
        end = {End.FAULT: "stopped", End.DEADLOCK: "stuck"}.get(schedule.end, "ended")
        return outcome(end, self.scheduler.core.console())

    def some(self, count: int) -> Counter[Outcome]:
        """The outcomes of some schedules that end soon, with how often each came."""
        found = (self.outcome(number) for number in range(count))
        return Counter(it for it in found if it)


def built(path: Path, folder: Path) -> Path:
    """The program that Go makes of a source."""
    made = folder / path.stem
    settings = {**os.environ, "GO111MODULE": "off"}
    done = subprocess.run(["go", "build", "-o", made, path], capture_output=True, text=True, env=settings, check=False)
    if done.returncode:
        pytest.skip("this Go refuses it: " + done.stderr.strip().splitlines()[-1])
    return made


def of_go(made: Path, processors: Optional[int]) -> Outcome:
    """The outcome of one run of a program that Go built; one that does not end is stuck."""
    settings = {**os.environ, "GOTRACEBACK": "none", **({"GOMAXPROCS": str(processors)} if processors else {})}
    try:
        done = subprocess.run([made], capture_output=True, text=True, env=settings, timeout=RUN_SECONDS, check=False)
    except subprocess.TimeoutExpired as stopped:
        written = stopped.stdout if isinstance(stopped.stdout, str) else (stopped.stdout or b"").decode()
        return outcome("stuck", written.splitlines())
    end = "ended" if not done.returncode else "stuck" if ASLEEP in done.stderr else "stopped"
    return outcome(end, done.stdout.splitlines())
