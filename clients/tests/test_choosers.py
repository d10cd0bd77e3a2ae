"""Schedulers of the hunt: who goes next, one of a user, and the table of what each finds; and findings as data."""
from __future__ import annotations

import json
import subprocess
import sys
from collections.abc import Sequence
from pathlib import Path
from random import Random

import pytest

from rewind_client.finding import start
from rewind_client.program import read_program
from rewind_client.replies import Kind as StepKind
from rewind_client.replies import KindWord, stepped
from rewind_hunt.choosers import CHOOSERS, Choice, Chooser, FirstInFirstOut, LastMadeReady, Priorities, Ready
from rewind_hunt.schedules import End, Scheduler

from support.places import CLIENTS, EXAMPLES, SESSIONS, TOP

OWN = EXAMPLES / "schedulers" / "youngest_first.py"
PROGRAMS = [*sorted(EXAMPLES.glob("*.go")), *(SESSIONS / f"{name}.go" for name in ("deadlock", "race_in_select", "default_selection", "prime_sieve"))]
STEPS = 300


def hunted(rewind: str, *words: str) -> "subprocess.CompletedProcess[str]":
    command = [sys.executable, str(CLIENTS / "rewind-hunt"), "--rewind", rewind, "--jobs", "1", *words]
    return subprocess.run(command, capture_output=True, text=True, check=False, timeout=120)


def scheduler(rewind: str, path: Path, name: str) -> Scheduler:
    return Scheduler(lambda: start(rewind, str(path)), read_program(str(path)), 1, STEPS, lambda number: CHOOSERS[name])


def names(chooser: Chooser, *ready: Sequence[str]) -> list[str]:
    return [chooser.choose([Ready(name, 1) for name in some]).goroutine for some in ready]


@pytest.mark.parametrize("path", PROGRAMS, ids=lambda it: str(it.stem))
def test_a_round_robin_is_that_of_the_program(path: Path, rewind: str) -> None:
    made = scheduler(rewind, path, "round-robin")
    entries = made.take(0).entries
    made.core.ask_all(["back g0#1", f"run {STEPS}"])
    assert entries == made.core.log()
    made.end()


@pytest.mark.parametrize("name", CHOOSERS)
def test_schedules_are_those_of_the_program(name: str, rewind: str) -> None:
    """The commands of a schedule take its steps in a fresh session, and it ends as it says; a seed decides it."""
    for path in PROGRAMS:
        made = scheduler(rewind, path, name)
        schedule = made.take(3)
        fresh = start(rewind, str(path))
        assert [stepped(reply) for reply in fresh.ask_all(schedule.commands())] == schedule.entries
        is_stuck = fresh.ask("run 1").last == "ok 0 stuck"
        assert is_stuck == (schedule.end is End.DEADLOCK) and (schedule.stopped or is_stuck or len(schedule.entries) == STEPS)
        assert made.take(3).entries == schedule.entries
        fresh.process.end()
        made.end()


def test_the_longest_ready_comes_first() -> None:
    chooser = FirstInFirstOut(Random(1), 10)
    told = names(chooser, ["g0", "g0.1"], ["g0.1", "g0"], ["g0.1", "g0.2"], ["g0.2", "g0.1"], ["g0.2", "g0"])
    assert told == ["g0", "g0", "g0.1", "g0.1", "g0.2"]


def test_the_run_queue_of_go() -> None:
    """The goroutine that was made ready last has the slot, and drives the one before it to the end of the queue."""
    chooser = LastMadeReady(Random(1), 10)
    growing = [["g0", "g0.1", "g0.2", "g0.3"][:count] for count in range(1, 5)]
    told = names(chooser, *growing, ["g0.1", "g0.2", "g0.3"], ["g0.1", "g0.2"], ["g0.2"])
    assert told == ["g0", "g0", "g0", "g0", "g0.3", "g0.1", "g0.2"]


def test_priorities_change_at_two_steps() -> None:
    """Between the changes the same goroutine goes first, and each change makes another one go."""
    ready = [Ready(f"g0.{at}", 1) for at in range(1, 9)]
    for seed in range(50):
        chooser = Priorities(Random(seed), 20)
        went = [chooser.choose(ready).goroutine for _ in range(25)]
        changes = [at + 1 for at in range(1, 25) if went[at] != went[at - 1]]
        assert set(changes) <= set(chooser.changes) and len(set(went)) == len(set(changes)) + 1


CASES = """package main

func main() {
	a, b, c := make(chan int, 1), make(chan int), make(chan int, 1)
	select {
	case a <- 1:
	case <-b:
	case c <- 2:
	}
}
"""


def test_the_cases_that_can_proceed(rewind: str, tmp_path: Path) -> None:
    path = tmp_path / "cases.go"
    path.write_text(CASES, encoding="ascii")
    seen: list[tuple[int, ...]] = []

    class Seeing(Chooser):
        def choose(self, ready: Sequence[Ready]) -> Choice:
            seen.append(ready[0].cases)
            return Choice(ready[0].goroutine, ready[0].cases[-1] if ready[0].cases else 0)

    made = scheduler(rewind, path, "random")
    made.chooser_of = lambda number: Seeing  # a class is what makes a chooser
    entries = made.take(0).entries
    made.end()
    assert [it for it in seen if it] == [(1, 3)] and StepKind(KindWord.PICK, 3) in [it.kind for it in entries]


def test_a_scheduler_of_a_user(rewind: str) -> None:
    done = hunted(rewind, "--runs", "9", "--scheduler", str(OWN), "--scheduler", "random", str(EXAMPLES / "worker_pool.go"))
    assert done.returncode == 1
    rows = [line.split() for line in done.stdout.splitlines() if line.startswith(("youngest_first.py", "random"))]
    assert rows[0] == ["youngest_first.py", "1", "1", "1", "52"] and rows[1][:2] == ["random", "9"]


HEAD = "class A:\n    def __init__(self, random, steps):\n        pass\n    def choose(self, ready):\n        "
WRONG = {
    "class A:\n    def choose(self, ready):\n        return 'g7', 0\n": "the scheduler cannot be made",
    f"{HEAD}return 'g7', 0\n": "the scheduler chose g7, which is not ready",
    f"{HEAD}return 1 / 0\n": "the scheduler has failed: ZeroDivisionError",
    f"{HEAD}return ready[0].goroutine, 9\n": "cannot proceed: 9",
    f"{HEAD}return ready[0].goroutine, 'x'\n": "the scheduler has failed: ValueError",
    f"{HEAD}return ['g0'], 0\n": "which is not ready",
    "x = 1\n": "has no class with a method 'choose'",
    "class A:\n    choose = 1\nclass B:\n    choose = 1\n": "has 2 classes with a method 'choose'",
    "def f(:\n": "cannot be taken as a scheduler: SyntaxError",
}


@pytest.mark.parametrize("text, said", WRONG.items(), ids=[str(at) for at in range(len(WRONG))])
def test_a_scheduler_that_is_wrong(text: str, said: str, rewind: str, tmp_path: Path) -> None:
    path = tmp_path / "wrong.py"
    path.write_text(text, encoding="ascii")
    done = hunted(rewind, "--runs", "2", "--scheduler", str(path), str(EXAMPLES / "unbuffered.go"))
    assert done.returncode == 2 and said in done.stderr and done.stderr.count("\n") == 1


def test_a_scheduler_that_is_not_there(rewind: str) -> None:
    assert "there is no scheduler 'best': there are round-robin, " in hunted(rewind, "--scheduler", "best", "x.go").stderr
    assert "cannot be taken as a scheduler" in hunted(rewind, "--scheduler", "missing.py", "x.go").stderr


# Findings as data.


def test_json(rewind: str, tmp_path: Path) -> None:
    refused = tmp_path / "refused.go"
    refused.write_text("package main\nfunc main() { x }\n", encoding="ascii")
    files = [str(EXAMPLES / "worker_pool.go"), str(EXAMPLES / "lost_update.go"), str(refused), "missing.go"]
    done = hunted(rewind, "--json", "--runs", "20", *files)
    records = [json.loads(line) for line in done.stdout.splitlines()]
    assert (done.returncode, [it["file"] for it in records], [it["status"] for it in records]) == (2, files, [1, 3, 2, 2])
    found = records[0]["found"][0]
    assert (found["kind"], found["fault"], found["places"]) == ("panic", "SendOnClosed", [{"function": "worker", "line": 6}])
    replies = subprocess.run([rewind, files[0]], input="\n".join(found["commands"]) + "\n", capture_output=True, text=True, check=False)
    assert replies.stdout.rstrip().endswith(" fault")
    assert sum(it["times"] for it in records[1]["ends"]) == records[1]["schedules"] == 20
    assert "C1" in records[2]["error"] and "cannot be read" in records[3]["error"]


def test_sarif(rewind: str) -> None:
    done = hunted(rewind, "--sarif", "--runs", "20", str(EXAMPLES / "worker_pool.go"), "missing.go")
    log = json.loads(done.stdout)
    run = log["runs"][0]
    assert (log["version"], run["tool"]["driver"]["name"], len(run["results"])) == ("2.1.0", "rewind-hunt", 1)
    result = run["results"][0]
    assert result["ruleId"] in [rule["id"] for rule in run["tool"]["driver"]["rules"]]
    place = result["locations"][0]["physicalLocation"]
    assert place == {"artifactLocation": {"uri": str(EXAMPLES / "worker_pool.go")}, "region": {"startLine": 6}}
    invocation = run["invocations"][0]
    assert not invocation["executionSuccessful"]
    assert "missing.go" in invocation["toolExecutionNotifications"][0]["message"]["text"]
    assert hunted(rewind, "--sarif", "--json", "x.go").returncode == 2


def test_the_recipe_for_a_class(rewind: str) -> None:
    """The command of the page for teachers, over the examples in place of submissions."""
    text = (TOP / "docs" / "GRADING.md").read_text(encoding="utf-8")
    command = next(line for line in text.splitlines() if line.startswith("ls submissions"))
    if subprocess.run(["sh", "-c", "command -v parallel"], capture_output=True, check=False).returncode:
        command = command.replace("parallel -k", "xargs -n 1")
    given = command.replace("submissions/*.go", "examples/double_close.go examples/lost_update.go")
    given = given.replace("--json", f"--json --runs 10 --rewind {rewind}")
    done = subprocess.run(["sh", "-c", given], cwd=TOP, capture_output=True, text=True, check=False, timeout=120)
    rows = done.stdout.splitlines()
    assert [row.split("  ")[0] for row in rows[:3]] == ["file", "double_close.go", "lost_update.go"] and rows[-1] == "0 of 2 are good"
