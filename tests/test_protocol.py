"""The protocol of clients: `rewind --json FILE` answers each line by a line of JSON.

A command is answered as the plain program answers it, with the parts of its reply beside the text. A query makes no entry. What the
program tells of steps is told by the model of tests/model, too. What it shows of earlier states, a second session shows in its own.
"""
from __future__ import annotations

import json
import random
import subprocess
from collections.abc import Iterable
from pathlib import Path
from typing import Any

import pytest

from model.session import Session as Model
from model.state import Step
from support.places import EXAMPLES, SESSIONS
from support.random_sessions import random_source, wander
from support.replies import Step as Kept
from support.replies import objects
from support.session import Session

SECONDS = 60
RANDOM = 40
SCRIPTS = sorted(SESSIONS.glob("*.script"))
Told = dict[str, Any]


def told(program: str, source: Path, lines: Iterable[str]) -> list[Told]:
    """What the protocol answers to lines."""
    asked = "".join(f"{line}\n" for line in lines)
    done = subprocess.run([program, "--json", source], input=asked, capture_output=True, text=True, timeout=SECONDS, check=True)
    return [json.loads(line) for line in done.stdout.splitlines()]


def plain(program: str, source: Path, lines: Iterable[str]) -> str:
    """What the plain program answers to lines."""
    asked = "".join(f"{line}\n" for line in lines)
    return subprocess.run([program, source], input=asked, capture_output=True, text=True, timeout=SECONDS, check=True).stdout


def accepted(program: str, source: Path) -> bool:
    return subprocess.run([program, "--check", source], capture_output=True, check=False).returncode == 0


@pytest.mark.parametrize("script", SCRIPTS, ids=[it.stem for it in SCRIPTS])
def test_commands_are_answered_as_ever(rewind: str, script: Path) -> None:
    """The texts of all answers are what the plain program writes."""
    source = script.with_suffix(".go")
    if not accepted(rewind, source) or script.stat().st_size > 20_000:
        pytest.skip("refused, or long")
    lines = script.read_text(encoding="utf-8", errors="surrogateescape").split("\n")
    texts = [answer["text"] for answer in told(rewind, source, lines)]
    assert "".join(texts) == plain(rewind, source, lines)


class Known:
    """What the model knows of each kept step, by the names of the protocol."""

    def __init__(self, model: Model) -> None:
        self.rows: list[Told] = []
        self.writers: dict[tuple[object, ...], str] = {}
        steps = list(model.log)
        model.rebuild([])
        for step in steps:
            goroutine = model.world.goroutines[step.go]
            at = {"function": goroutine.frames[-1].function.name, "line": goroutine.ask.line}
            self.rows.append({"at": at, **self.row(model.take(step.go, step.choice))})

    def row(self, step: Step) -> Told:
        read = {self.source(place, False) for place in step.reads - step.writes if place != ("run",)}
        written = {self.source(place, True) for place in step.writes if place != ("run",)}
        for place in step.writes:
            self.writers[place] = step.name
        gates = [place[1] for place in step.writes if place[0] == "gate"]
        return {
            "id": step.name,
            "kind": step.kind,
            "prints": step.printed is not None,
            "given": sorted(step.gives),
            "sources": read | written,
            "communicates": step.operation,
            "made": gates[0] if step.kind == "make" else None,
            "reached": {place[1] for place in step.writes if place[0] == "go"} - {step.go},
        }

    def source(self, place: tuple[object, ...], wrote: bool) -> tuple[object, ...]:
        name = {"go": "goroutine"}.get(str(place[0]), place[0])
        slot = place[2] if name == "slot" else None
        return name, place[1], slot, self.writers.get(place), wrote


def row_of(row: Told) -> Told:
    """A row of the protocol, as the model has it."""
    sources = {(it["object"], it["of"], it["slot"], it["step"], it["wrote"]) for it in row["sources"]}
    done = (row["channel"]["operation"], row["channel"]["name"]) if row["channel"] else None
    told: Told = {key: row[key] for key in ("at", "id", "kind", "prints", "made")}
    # The model keeps no operation of a step that faulted, nor a `len` or `cap`.
    communicates = done if done and done[0] not in ("len", "cap") and not row["kind"].startswith("fault") else None
    return {**told, "given": sorted(row["given"]), "sources": sources, "communicates": communicates, "reached": set(row["reached"])}


@pytest.mark.parametrize("number", range(RANDOM))
def test_steps_are_told_as_the_model_has_them(begin: Any, rewind: str, tmp_path: Path, seed: int, number: int) -> None:
    chance = random.Random(seed * 1000 + number)
    text = random_source(chance)
    session: Session = begin(text)
    wander(chance, session)
    source = tmp_path / "protocol.go"
    source.write_text(text, encoding="utf-8")
    model = Model(text.encode())
    for line in session.script:
        model.ask(line)
    rows = told(rewind, source, [*session.script, "about 1 1000"])[-1]["about"]
    assert [row_of(row) for row in rows] == Known(model).rows


def test_a_step_is_told_by_its_name(rewind: str) -> None:
    lines = ["run 100", "about g0#1", "about g0#99", "about 1 2"]
    _, one, none, two = told(rewind, EXAMPLES / "lock_order.go", lines)
    assert one == {"about": [two["about"][0]], "next": None}
    assert none == {"about": [], "next": None}
    assert [row["id"] for row in two["about"]][0] == "g0#1"


def test_queries_make_no_entry(rewind: str) -> None:
    """What was asked leaves `redo` as it is, and the log."""
    answers = told(rewind, EXAMPLES / "lock_order.go", ["run 3", "undo", "about 1 9", "redo", "log"])
    assert answers[3]["reply"]["answer"] == "steps"
    assert len(answers[4]["reply"]["steps"]) == 3


def test_long_answers_come_in_portions(rewind: str, tmp_path: Path) -> None:
    source = tmp_path / "long.go"
    source.write_text("package main\nfunc main() {\n\tfor i := 0; i < 9999; i++ {\n\t}\n}\n", encoding="utf-8")
    _, first, rest = told(rewind, source, ["run 2500", "about 1 2500", "about 2001 9999"])
    assert (len(first["about"]), first["next"]) == (1000, 1001)
    assert (len(rest["about"]), rest["next"]) == (500, None)


def views_of(log: list[Kept]) -> list[str]:
    """What may be asked of the states of a log, and of goroutines and channels that are not there."""
    goroutines, channels = objects(log)
    shown = [f"show {name}" for name in goroutines] + [f"text {name}" for name in goroutines] + [f"chan {name}" for name in channels]
    return [*shown, "console", "show g0.9", "text g0.9", "chan g0/c9"]


def shown_earlier(program: str, source: Path, log: list[Kept], steps: int) -> list[Told]:
    """What a session shows that takes only so many of the steps."""
    taken = [step.command() for step in log[:steps]]
    return told(program, source, [*taken, *views_of(log)])[steps:]


@pytest.mark.parametrize("number", range(RANDOM))
def test_earlier_states_are_shown_as_they_were(begin: Any, rewind: str, tmp_path: Path, seed: int, number: int) -> None:
    """Whatever was taken back, taken again or put in another order, and in whatever order the states are asked for."""
    chance = random.Random(seed * 1000 + number)
    text = random_source(chance)
    session: Session = begin(text)
    wander(chance, session)
    log = session.log()
    source = tmp_path / "earlier.go"
    source.write_text(text, encoding="utf-8")
    places = [chance.randint(0, len(log)) for _ in range(4)]
    queries = [f"at {steps} {view}" for steps in places for view in views_of(log)]
    told_here = told(rewind, source, [*session.script, *queries])[len(session.script) :]
    assert told_here == [answer for steps in places for answer in shown_earlier(rewind, source, log, steps)]


def test_earlier_states_are_shown_between_commands(rewind: str) -> None:
    """The second machine goes with the log, wherever commands take that."""
    source = EXAMPLES / "lock_order.go"
    commands = ["run 40", "undo", "back g0.1#2", "redo", "run 3", "back g0#2", "run 9"]
    lines: list[str] = []
    expected: list[Told] = []
    for command in commands:
        lines.append(command)
        log = [Kept(it["id"], it["kind"]) for it in told(rewind, source, [*lines, "log"])[-1]["reply"]["steps"]]
        for steps in (len(log) // 2, len(log)):
            lines += [f"at {steps} {view}" for view in views_of(log)]
            expected += shown_earlier(rewind, source, log, steps)
    answers = [answer for line, answer in zip(lines, told(rewind, source, lines)) if line.startswith("at ")]
    assert answers == expected


def test_an_earlier_state_changes_nothing(rewind: str) -> None:
    answers = told(rewind, EXAMPLES / "lock_order.go", ["run 3", "undo", "at 1 show g0", "at 2 console", "redo", "log"])
    assert answers[4]["reply"]["answer"] == "steps"
    assert len(answers[5]["reply"]["steps"]) == 3


def test_a_step_that_is_not_kept_has_no_state(rewind: str) -> None:
    asked = ["run 3", "at 3 show g0", "at 4 show g0", "at 4294967295 console"]
    _, last, beyond, far = told(rewind, EXAMPLES / "lock_order.go", asked)
    assert last["reply"]["answer"] == "goroutine"
    assert beyond == far == {"reply": {"answer": "refused", "code": "B2"}, "text": "no B2\n"}


NO_COUNT = ["at", "at 1", "at x show g0", "at 01 show g0", "at 4294967296 console"]
NO_VIEW = ["at 1 show", "at 1 show g0 1", "at 1 console 2", "at 1 log", "at 1 run 2"]


@pytest.mark.parametrize("line", [*NO_COUNT, *NO_VIEW])
def test_what_is_no_view_is_said(rewind: str, line: str) -> None:
    (answer,) = told(rewind, EXAMPLES / "lock_order.go", [line])
    assert answer["error"] == "bad request"
    assert "at N with show G" in answer["expected"]


@pytest.mark.parametrize("line", ["about", "about g0", "about 0 1", "about 1 2 3", "about 1 x", "tell", "about g0#1 2"])
def test_what_is_no_request_is_said(rewind: str, line: str) -> None:
    (answer,) = told(rewind, EXAMPLES / "lock_order.go", [line])
    assert answer["error"] == "bad request"
    assert answer["text"] == "? bad command\n"
    assert "about G#N" in answer["expected"]


def test_a_source_that_is_refused(rewind: str, tmp_path: Path) -> None:
    source = tmp_path / "refused.go"
    source.write_text("package main\n", encoding="utf-8")
    done = subprocess.run([rewind, "--json", source], input="", capture_output=True, text=True, timeout=SECONDS, check=False)
    assert (done.returncode, done.stdout) == (1, "")
    assert done.stderr.startswith("rewind: C")
