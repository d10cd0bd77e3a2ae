"""Beside Go: what a program does when Go runs it, some schedule of the rules does too.

Each program of tests/go, examples, crates/sessions/data and bench/programs is built by `go build` once and run 200 times, on
one, two and all processors in turn. A run's outcome is its lines, and how it ended: by the end of `main`, by a panic with its text, or
because all goroutines are asleep. Its exit status must be Go's for that. Then random schedules are taken, as `rewind-hunt` does, until
each outcome of Go is met. An outcome that 200,000 schedules do not meet in time is a failure. The short form takes 20 runs of the
programs of tests/go alone.

Go's `println` writes to standard error, in the order of time; `console` tells lines in the order of the log. Where one goroutine
alone prints, its lines have one order in both, and are compared in that. Where several print, Go does not tell whose a line is, and
lines of two goroutines may come in either order; so they are compared whatever their order. Go writes a line piece by piece, and the
end of `main` may cut it: such a piece is no line. All this shows that Go does nothing that the rules forbid, as far as these programs
and runs go. It does not show that Go does all that the rules allow.

A program is skipped where one of the two refuses it, where it does not end soon by round robin, or where it ends at a limit that Go does
not have. So are all where no `go` is on the path.
"""
from __future__ import annotations

import os
import shutil
import subprocess
import time
from collections import Counter
from collections.abc import Callable, Iterable
from pathlib import Path
from typing import NamedTuple, Optional

import pytest

from rewind_client.errors import SourceRefused
from rewind_client.finding import start
from rewind_client.meanings import DEADLOCK, FAULTS
from rewind_client.program import read_program
from rewind_client.replies import lines_within
from rewind_hunt.schedules import End, Scheduler

from support.forms import short_first
from support.places import TOP

FOLDERS = ("examples", "crates/sessions/data", "bench/programs")
# A schedule or a round robin of more steps is too long to be met by chance.
MOST_STEPS = 3000
LIMITS = ("CallDepth", "NameDepth", "NameCount")
RUN_SECONDS = 10
# How often Go runs a program, in the short form and in the long one; how many schedules are tried, and for how long.
RUNS, FULL_RUNS = 20, 200
TRIES, SECONDS = 200_000, 200.0
# Programs with outcomes without end, of which no number of schedules meets each.
WITHOUT_END = {name: "how long it goes on has no bound" for name in ("starved_select.go", "default_selection.go")}


class Outcome(NamedTuple):
    """How a run ended, empty for the end of `main`, and its lines: in their order, or sorted where several goroutines print."""

    end: str
    lines: tuple[str, ...]

    def sorted(self) -> Outcome:
        return Outcome(self.end, tuple(sorted(self.lines)))

    def told(self) -> str:
        return f"{self.end or 'the end of main'} after {' / '.join(self.lines[:20]) or 'no line'}{' ..' if len(self.lines) > 20 else ''}"


# Go.


def built(path: Path, folder: Path) -> Path:
    """The program that Go makes of a source."""
    made = folder / path.stem
    done = subprocess.run(["go", "build", "-o", made, path], capture_output=True, text=True, check=False)
    if done.returncode:
        why = [line for line in done.stderr.splitlines() if not line.startswith("#")]
        pytest.skip("Go refuses it: " + (why[0].split(": ", 1)[-1] if why else "no reason"))
    return made


def outcome_of_go(made: Path, processors: Optional[int]) -> Outcome:
    """The outcome of one run of a program that Go built."""
    settings = {**os.environ, "GOTRACEBACK": "none", **({"GOMAXPROCS": str(processors)} if processors else {})}
    try:
        done = subprocess.run([made], capture_output=True, text=True, env=settings, timeout=RUN_SECONDS, check=False)
    except subprocess.TimeoutExpired:
        pytest.skip(f"a run of Go does not end in {RUN_SECONDS} seconds")
    lines = done.stderr.split("\n")[:-1]
    ends = [at for at, line in enumerate(lines) if line == DEADLOCK or line.startswith("panic: ")]
    end = lines[ends[0]] if ends else ""
    assert not done.stdout and done.returncode == (2 if end else 0), done
    return Outcome(end, tuple(lines[: ends[0]] if ends else lines))


def outcomes_of_go(made: Path, runs: int) -> Counter[Outcome]:
    """The outcomes of some runs, with how often each came."""
    return Counter(outcome_of_go(made, (1, 2, None)[number % 3]) for number in range(runs))


# Rewind.


class Schedules:
    """Random schedules of a source, one after the other, as outcomes."""

    def __init__(self, program: str, path: Path) -> None:
        source = read_program(str(path))
        self.scheduler = Scheduler(lambda: start(program, str(path)), source, 1, MOST_STEPS)
        self.printers: set[str] = set()

    def outcome(self, number: int) -> Optional[Outcome]:
        """The outcome of a schedule, or None where it does not end soon; whose lines they are is noted."""
        schedule = self.scheduler.take(number)
        if schedule.end is End.UNENDED:
            return None
        core = self.scheduler.core
        lines = tuple(core.console())
        if len(self.printers) < 2:
            texts = core.process.ask_all([f"text {name}" for name in schedule.goroutines])
            self.printers |= {name for name, text in zip(schedule.goroutines, texts) if lines_within(text)}
        if schedule.end is End.FAULT:
            fault = schedule.entries[-1].kind.fault
            if fault in LIMITS:
                pytest.skip(f"it ends at a limit that Go does not have: {fault}")
            return Outcome(FAULTS[fault], lines)
        return Outcome(DEADLOCK if schedule.end is End.DEADLOCK else "", lines)


def unmet(schedules: Schedules, first: Outcome, outcomes: Iterable[Outcome], seconds: float) -> tuple[set[Outcome], int]:
    """Takes schedules until each outcome of Go is met: those that are left, and how many schedules were taken.

    Sequences are compared as long as one goroutine alone has printed in all schedules that were taken.
    """
    left, met = set(outcomes), set()
    until = time.monotonic() + seconds
    for number in range(TRIES):
        found = first if number == 0 else schedules.outcome(number)
        if found:
            met.add(found.sorted())
            left.discard(found)
        if len(schedules.printers) > 1:
            left = {it for it in left if it.sorted() not in met}
        if not left or time.monotonic() > until:
            return left, number + 1
    return left, TRIES


# Both.

PROGRAMS = short_first(
    sorted((TOP / "tests" / "go").glob("*.go")), [path for folder in FOLDERS for path in sorted((TOP / folder).glob("*.go"))]
)


@pytest.mark.skipif(shutil.which("go") is None, reason="no `go` is on the path")
@pytest.mark.parametrize("path", PROGRAMS, ids=lambda path: str(path.stem))
def test_beside_go(path: Path, rewind: str, pytestconfig: pytest.Config, tmp_path: Path, told: Callable[[str], None]) -> None:
    if path.name in WITHOUT_END:
        pytest.skip(WITHOUT_END[path.name])
    try:
        schedules = Schedules(rewind, path)
    except SourceRefused as refused:
        pytest.skip(f"Rewind refuses it: {refused.code}")
    try:
        first = schedules.outcome(0)
        if not first:
            pytest.skip(f"by round robin it does not end in {MOST_STEPS} steps")
        runs = FULL_RUNS if pytestconfig.getoption("--full") else RUNS
        outcomes = outcomes_of_go(built(path, tmp_path), runs)
        left, tries = unmet(schedules, first, outcomes, SECONDS)
    finally:
        schedules.scheduler.end()
    lines = [f"no schedule of {tries} comes to {it.told()}, as {outcomes[it]} of {runs} runs of Go do" for it in sorted(left)]
    assert not lines, "\n".join(lines)
    how = "in their order" if len(schedules.printers) < 2 else "whatever their order"
    told(f"{len(outcomes)} outcomes, lines {how}, {tries} schedules")
