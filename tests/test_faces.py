"""What page, shell and adapter say of a program, compared with each other, and their claims tried against the core.

Each program of the repository, and random ones, are run round robin and by random schedules, in part of which something can still go
on. The faces must say the same of who waits, for what and for whom, of the cycle, of the end, and of the lines and values of the last
200 steps. The modules of the page are run by node, over the native program. The short form takes 30 programs of the repository,
spread evenly over all, and 14 random ones; the long form takes all, and 2,000.
"""
from __future__ import annotations

import random
import re
import shutil
import subprocess
from collections.abc import Callable, Iterator
from pathlib import Path
from typing import Any

import pytest

from faces.claims import Claims, Walk, children, states
from faces.sources import of_repository, random_source
from faces.told import Page, Said, of_adapter, of_shell
from support.forms import short_first
from support.places import TOP
from support.session import Session

RUN = "run 2000"
CONTINUATIONS = 4
# What a row of the shell's history tells of a value: sent, received, or with which a wait ended.
VALUE = re.compile(r" (?:(?:sends|receives) (?!a value)|waits to send |until \S+ with )(\S+)(?: to | from |$)")
PROGRAMS = of_repository()
SHORT = PROGRAMS[:: max(1, len(PROGRAMS) // 30)][:30]
# Random programs of the short form; in the last four a select was met that waited for several channels, or for one in several cases.
SHORT_RANDOM = (*range(10), 206, 1223, 1324, 1386)


def schedules(program: str, path: Path, chance: random.Random) -> list[list[str]]:
    """Lists of commands: round robin, some random steps, and random steps until nothing goes on."""
    few, some = chance.randint(3, 20), chance.randint(10, 50)
    return [[RUN], walk(program, path, chance, few), walk(program, path, chance, some), walk(program, path, chance, 400)]


def walk(program: str, path: Path, chance: random.Random, most: int) -> list[str]:
    """Random steps of ready goroutines, as commands."""
    core = Session(program, str(path))
    try:
        steps = Walk(core, chance)
        commands: list[str] = []
        for _ in range(min(most, 120)):
            name, reply = steps.step()
            if not name:
                break
            commands.append(f"step {name}")
            if reply[2] in ("exit", "fault"):
                break
        return commands if most < 100 else [*commands, RUN]
    finally:
        core.close()


def differs(one: str, left: object, other: str, right: object) -> list[str]:
    return [] if left == right else [f"{one}: {left!r}; {other}: {right!r}"]


def of_faces(page: Said, shell: Said) -> list[str]:
    """Where page and shell differ."""
    why, standing = shell["why"], shell["standing"]
    faults = differs("the page's cycle", page["cycle"], "the shell's", shell["cycle"])
    faults += [f"the page knows other causes of {step} than the program" for step in page["unlike"][:5]]
    if standing == "fault":
        place = re.match(r"(\S+) met it at line (\d+): .* \((\S+)\)$", why[1])
        is_told = place and f" in {place[3]} at line {place[2]}: " in page["state"]
        return faults if is_told else [*faults, f"the page says {page['state']!r} of {why!r}"]
    faults += differs("the page's waits", page["waits"], "the shell's", shell["waits"])
    told = why if standing == "ended" else why[len(why) - len(page["lines"]) :]
    faults += differs("the page", page["lines"], "the shell", told)
    if standing == "ended":
        faults += [] if page["state"].startswith(why[0]) else [f"the page's banner is {page['state']!r}"]
    if standing == "deadlock":
        faults += [] if page["state"].startswith("Deadlock: ") else [f"the page's banner is {page['state']!r}"]
    return faults + of_steps(page["steps"], shell["steps"])


def of_steps(page: list[dict[str, Any]], shell: list[dict[str, Any]]) -> list[str]:
    """Where lines and values of steps differ."""
    faults = differs("the page's steps", [it["id"] for it in page], "the shell's", [it["id"] for it in shell])
    for left, right in zip(page, shell):
        faults += differs(f"the page's line of {left['id']}", left["line"], "the shell's", right["line"])
        told = VALUE.search(right["row"])
        if told and left["value"]:
            faults += differs(f"the page's value of {left['id']}", left["value"], "the shell's", told[1])
    return faults[:5]


def tried(program: str, path: Path, commands: list[str], shell: Said) -> list[str]:
    """What is wrong of the claims, by the core alone."""
    faults: list[str] = []
    for number in range(1 + CONTINUATIONS * (shell["standing"] == "running")):
        core = Session(program, str(path))
        try:
            for command in commands:
                core.ask(command)
            if shell["standing"] == "ended":
                return fates(core, shell["why"])
            claims = Claims(core, shell["why"])
            if number == 0:
                claims.check()
            else:
                claims.go_on(random.Random(number), 120, shell["cycle"])
            faults += claims.faults
        finally:
            core.close()
    return faults


def fates(core: Session, lines: list[str]) -> list[str]:
    """What is wrong of what is told of those that are not done: the exit is taken back, and the others go on one after another."""
    before = states(core, list(children(core)))
    names = [name for name, state in before.items() if name != "g0" and state.word != "done"]
    told = {line.split(" ")[0]: line for line in lines[1:] if re.match(r"g0[.\d]* would", line)}
    if any(" would stop the program at " in line for line in lines):
        return []
    faults = [f"nothing is told of {name}" for name in names if name not in told and len(told) < 20]
    core.ask("undo")
    for _ in range(250):
        taken = [core.ask(f"step {name}")[-1].startswith("ok") for name in children(core) if name != "g0" for _ in range(8)]
        if not any(taken):
            break
    else:
        return faults
    after = states(core, list(told))
    for name, line in told.items():
        wanted = "done" if line.endswith(" would end") else "waiting"
        faults += [] if after[name].word == wanted else [f"{line!r}, and it is {after[name].word}"]
    return faults


class Faces:
    """The faces of a program, asked of the states of sources."""

    def __init__(self, program: str) -> None:
        self.program, self.page = program, Page(program)

    def faults(self, path: Path, commands: list[str], has_adapter: bool) -> list[str]:
        """What is wrong of one state."""
        source = path.read_text(encoding="utf-8", errors="replace")
        page, shell = self.page.told(source, commands), of_shell(self.program, path, commands)
        found = differs("the adapter", of_adapter(path, commands), "the shell", shell["why"]) if has_adapter else []
        return found + of_faces(page, shell) + tried(self.program, path, commands, shell)

    def compare(self, path: Path, seed: int, has_adapter: bool) -> str:
        """Compares the states to which all schedules of a program lead, and tells how many these are."""
        if subprocess.run([self.program, "--check", path], capture_output=True, check=False).returncode:
            return "refused"
        found = []
        listed = schedules(self.program, path, random.Random(seed))
        for commands in listed:
            faults = self.faults(path, commands, has_adapter and commands == [RUN])
            found += [f"{path.name}, {'; '.join(commands)}: {fault}" for fault in faults]
        assert not found, "\n".join(found)
        return f"{len(listed)} states"


@pytest.fixture(scope="module")
def faces(rewind: str) -> Iterator[Faces]:
    if shutil.which("node") is None:
        pytest.skip("there is no node")
    found = Faces(rewind)
    yield found
    found.page.end()


@pytest.mark.parametrize("path", short_first(SHORT, PROGRAMS), ids=lambda path: str(path.relative_to(TOP)))
def test_a_program_of_the_repository(path: Path, faces: Faces, told: Callable[[str], None]) -> None:
    number = PROGRAMS.index(path)
    told(faces.compare(path, number, has_adapter=number % 4 == 0))


@pytest.mark.parametrize("number", short_first(SHORT_RANDOM, range(2000)))
def test_a_random_program(number: int, seed: int, faces: Faces, tmp_path: Path, told: Callable[[str], None]) -> None:
    path = tmp_path / f"random_{number}.go"
    path.write_text(random_source(seed * 1_000_000 + number), encoding="utf-8")
    told(faces.compare(path, seed * 1_000_000 + number, has_adapter=number % 20 == 0))
