"""A second opinion on searches: a plain model tries all schedules of small random programs.

Where none ends badly, the program must say so; where some do, its schedule must be as short as the shortest, and a run of the
program; and the step to blame for a bad end must be the model's.
"""
from __future__ import annotations

import random
import re
from pathlib import Path
from typing import Optional

import pytest

from model.parser import functions
from model.schedules import BAD, Choice, ENDED, FAULT, LEAK, STUCK, Node, Schedules, TooMany, clauses_of, end_of, leaks
from model.world import Refused, World
from support.program import Program
from support.small_programs import small_program

# So many states does the model go through; programs with more are left out.
MOST = 700
# How many programs, in how many cases.
USUAL, FULL, CASES = 40, 3_000, 20
NONE_BAD, SOME_BAD = 0, 4
WORDS = {STUCK: "a deadlock", FAULT: "a panic", LEAK: "a leak"}


def schedules_of(source: str) -> Optional[Schedules]:
    """All schedules of a program, where they are few."""
    try:
        return Schedules(functions(source.encode()), MOST)
    except TooMany:
        return None


def searched(program: Program, options: list[str], source: str, commands: list[str]) -> tuple[int, list[str], str]:
    """The status of a search behind some commands, the lines of standard output, and the sentence."""
    Path(program.source).write_text(source)
    script = "".join(f"{it}\n" for it in commands).encode()
    done = program.run_words([*options, program.source, "--after", "-"], script)
    return done.status, done.output.decode().splitlines(), done.error.decode().strip()


def check_search(program: Program, source: str, options: list[str], bad: Optional[Node]) -> None:
    """The search tells a bad end of the fewest steps, or that there is none."""
    status, commands, sentence = searched(program, options, source, [])
    if bad is None:
        assert status == NONE_BAD and not commands, sentence
        assert re.fullmatch(r"no schedule ends badly: (all \d+ states|its one state) seen", sentence)
        return
    assert status == SOME_BAD, sentence
    assert len(commands) == len(bad.way), (commands, bad.way)
    world = behind(source, commands)
    found = LEAK if leaks(world) else end_of(world)
    assert found in (*BAD, LEAK)
    assert sentence == f"a schedule of {len(commands)} steps ends in {WORDS[found]}"


def behind(source: str, commands: list[str]) -> World:
    """The model's state behind commands that take steps."""
    world = World(functions(source.encode()))
    for command in commands:
        go, *clause = command.split()[1:]
        world.step(go, int(clause[0]) if clause else None)
    return world


def drawn(chance: random.Random, source: str) -> tuple[Choice, ...]:
    """A run to its end, by chance."""
    world, way = World(functions(source.encode())), list[Choice]()
    while not end_of(world):
        go = chance.choice(world.ready())
        choice = Choice(go, chance.choice((None, *clauses_of(world, go))))
        try:
            world.step(*choice)
        except Refused:
            continue
        way.append(choice)
    return tuple(way)


def check_blame(program: Program, source: str, found: Schedules, chance: random.Random) -> None:
    """The step to blame for the end of a random run is the model's."""
    way = drawn(chance, source)
    status, names, sentence = searched(program, ["--blame"], source, [it.command() for it in way])
    blamed = found.to_blame(way)
    assert (status, names) == (NONE_BAD, [blamed] if blamed else []), (sentence, way)


@pytest.mark.parametrize("case", range(CASES))
def test_small_programs(case: int, program: Program, request: pytest.FixtureRequest) -> None:
    number = FULL if request.config.getoption("--full") else USUAL
    first = request.config.getoption("--seed") * 1_000_000
    kinds = set[str]()
    for seed in range(first + case, first + number, CASES):
        source = small_program(seed)
        found = schedules_of(source)
        if found is None:
            continue
        bad = found.shortest_bad()
        try:
            check_search(program, source, ["--search"], bad)
            check_search(program, source, ["--leaks", "--search"], found.shortest_bad(with_leaks=True))
            check_blame(program, source, found, random.Random(seed))
        except AssertionError:
            print(f"seed {seed}\n{source}")
            raise
        kinds.add(bad.end if bad else ENDED)
    assert kinds
