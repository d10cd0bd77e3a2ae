"""Steps that random sessions keep, taken once more in fresh sessions: each goroutine, channel and text must be the same.

A session steps, runs, takes steps back with their consequences, takes them again and puts them in other orders, at random,
over a random source. Then its kept steps are taken in a fresh session in the order of its log, and in two others that respect
dependence as `causes` tells it.

`test_a_small_session` draws by hypothesis, so that a session that differs comes in its smallest form. `test_sessions_of_seeds` takes
seed after seed for a time: `--seconds 600 --seed 5 -k seeds` goes on for ten minutes in each of four parts.
"""
from __future__ import annotations

import random
import time
from collections.abc import Callable
from pathlib import Path
from typing import Optional

import pytest
from hypothesis import HealthCheck, Phase, given, settings, strategies

from support.random_sessions import random_source, wander
from support.replies import Step, questions_of_state
from support.session import Session

# Seconds of each part, and how many there are.
USUAL, PARTS = 15.0, 4
EXAMPLES = 100


def another_order(chance: random.Random, log: list[Step], causes: dict[str, set[str]]) -> list[Step]:
    """The steps of a log in a random order in which each comes after those that it depends on."""
    left, taken, order = list(log), set[str](), []
    while left:
        step = chance.choice([step for step in left if causes[step.name] <= taken | {step.name}])
        left.remove(step)
        taken.add(step.name)
        order.append(step)
    return order


def fault_of_replay(session: Session, order: list[Step], questions: list[str], wanted: list[list[str]]) -> Optional[str]:
    """How a fresh session that takes these steps differs, if it does."""
    for step in order:
        reply = session.ask(step.command())
        if reply != [f"ok {step.name} {step.kind}"]:
            return f"{step.name} {step.kind}: {reply}"
    differ = [(old, new) for old, new in zip(wanted, session.ask_all(questions)) if old != new]
    return f"{differ[0][0]}: {differ[0][1]}" if differ else None


def check_session(chance: random.Random, rewind: str, path: Path) -> None:
    """Compares a random session with its kept steps taken once more."""
    source = random_source(chance)
    path.write_text(source, encoding="utf-8")
    session = Session(rewind, str(path))
    wander(chance, session)
    log = session.log()
    causes = {step.name: set(session.ask(f"causes {step.name}")[-1].split()[2:]) for step in log}
    questions = questions_of_state(log)
    wanted = session.ask_all(questions)
    session.close()
    for order in (log, another_order(chance, log, causes), another_order(chance, log, causes)):
        again = Session(rewind, str(path))
        fault = fault_of_replay(again, order, questions, wanted)
        again.close()
        assert fault is None, "\n".join([str(fault), source, "asked:", *session.script, "and again:", *again.script])


@settings(max_examples=EXAMPLES, deadline=None, derandomize=True, suppress_health_check=list(HealthCheck), phases=set(Phase) - {Phase.explain})
@given(chance=strategies.randoms(use_true_random=False))
def test_a_small_session(chance: random.Random, rewind: str, tmp_path_factory: pytest.TempPathFactory) -> None:
    check_session(chance, rewind, tmp_path_factory.getbasetemp() / "replayed.go")


@pytest.mark.long
@pytest.mark.timeout(7200)
@pytest.mark.parametrize("part", range(PARTS))
def test_sessions_of_seeds(
    part: int, seed: int, seconds: Optional[float], rewind: str, tmp_path: Path, told: Callable[[str], None]
) -> None:
    end, number = time.monotonic() + (seconds or USUAL), seed + part
    while time.monotonic() < end:
        check_session(random.Random(number), rewind, tmp_path / f"seed_{number}.go")
        number += PARTS
    told(f"{(number - seed - part) // PARTS:,} sessions")
