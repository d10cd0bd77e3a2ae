"""A second opinion: a plain model answers the commands of sessions, and must answer as the program does.

First the example sessions, as far as their logs are short, and then random ones. The model lies in tests/model, and knows the pages
docs/LANGUAGE.md, docs/STEPS.md and docs/COMMANDS.md.

`test_a_small_session` draws by hypothesis, so that a session that differs comes in its smallest form. `test_sessions_of_seeds` takes
seed after seed for a time: `--seconds 600 --seed 5 -k seeds` goes on for ten minutes in each of four parts.
"""
from __future__ import annotations

import random
import re
import sys
import time
from collections.abc import Callable, Iterator
from pathlib import Path
from typing import Optional

import pytest
from hypothesis import HealthCheck, Phase, given, settings, strategies

from model.session import Session as Model
from support.places import SESSIONS
from support.random_sessions import random_source, wander
from support.replies import Asked, answered, questions_of_state
from support.session import Session

# More bytes of commands, or steps in a run, are too many for a model that replays.
LARGE, LONG = 20_000, 2_000
# Seconds of each part, and how many there are.
USUAL, PARTS = 15.0, 4
EXAMPLES = 60


@pytest.fixture(autouse=True, scope="module")
def deep_recursion() -> Iterator[None]:
    """The model goes down a tree by calls."""
    usual = sys.getrecursionlimit()
    sys.setrecursionlimit(20_000)
    yield
    sys.setrecursionlimit(usual)


def is_breach(wanted: list[str], found: list[str], model: Model) -> bool:
    """Whether replies differ. Of an order that breaks dependence any pair may be named that does."""
    if wanted == found:
        return False
    names = re.fullmatch(r"no B4 (\S+) (\S+)", found[-1])
    if not names or not re.fullmatch(r"no B4 (\S+) (\S+)", wanted[-1]):
        return True
    earlier, later = (model.log[model.place(name)] for name in names.groups())
    return model.log.index(earlier) > model.log.index(later) or not earlier.conflicts(later)


def check(source: bytes, asked: list[Asked]) -> None:
    """Fails at the first command whose reply is not the model's."""
    model = Model(source)
    for line, found in asked:
        wanted = model.ask(line)
        if wanted is not None:
            assert not is_breach(wanted, found, model), f"{line}: {found}, by the model {wanted}\n{source.decode()}"


def is_short(source: Path) -> bool:
    """Whether an example session is accepted, and short enough for the model."""
    script, expected = source.with_suffix(".script"), source.with_suffix(".expect").read_text(encoding="latin-1")
    if not script.exists() or expected.startswith("rewind: ") or script.stat().st_size > LARGE:
        return False
    return max((int(it) for it in re.findall(r"^ok (\d+) ", expected, re.M)), default=0) <= LONG


def lines_of(script: Path) -> list[str]:
    with open(script, encoding="latin-1", newline="\n") as file:
        return file.read().split("\n")


@pytest.mark.parametrize("source", [path for path in sorted(SESSIONS.glob("*.go")) if is_short(path)], ids=lambda path: str(path.stem))
def test_an_example(source: Path) -> None:
    expected = source.with_suffix(".expect").read_text(encoding="latin-1")
    check(source.read_bytes(), list(answered(lines_of(source.with_suffix(".script")), expected)))


class Noting(Session):
    """A session that keeps each command with its reply."""

    def __init__(self, program: str, source: str) -> None:
        super().__init__(program, source)
        self.asked: list[Asked] = []

    def reply(self, command: str) -> list[str]:
        found = super().reply(command)
        self.asked.append((command, found))
        return found


def check_session(chance: random.Random, rewind: str, path: Path) -> None:
    """Compares a random session with the model."""
    source = random_source(chance)
    path.write_text(source, encoding="utf-8")
    session = Noting(rewind, str(path))
    wander(chance, session)
    log = session.log()
    session.ask_all(questions_of_state(log))
    for step in log:
        session.ask_all([f"causes {step.name}", f"deps {step.name}"])
    session.ask("console")
    session.close()
    check(source.encode(), session.asked)


@settings(max_examples=EXAMPLES, deadline=None, derandomize=True, suppress_health_check=list(HealthCheck), phases=set(Phase) - {Phase.explain})
@given(chance=strategies.randoms(use_true_random=False))
def test_a_small_session(chance: random.Random, rewind: str, tmp_path_factory: pytest.TempPathFactory) -> None:
    check_session(chance, rewind, tmp_path_factory.getbasetemp() / "modelled.go")


@pytest.mark.long
@pytest.mark.timeout(7200)
@pytest.mark.parametrize("part", range(PARTS))
def test_sessions_of_seeds(
    part: int, seed: int, seconds: Optional[float], rewind: str, tmp_path: Path, told: Callable[[str], None]
) -> None:
    end, number = time.monotonic() + (seconds or USUAL), seed + part
    while time.monotonic() < end:
        check_session(random.Random(number), rewind, tmp_path / f"seed_{number}.go")
        number += PARTS
    told(f"{(number - seed - part) // PARTS:,} sessions")
