"""What page and shell save is one format: each opens what the other has written, and takes the same commands of it.

It is left out where there is no node.
"""
from __future__ import annotations

import json
import shutil
import subprocess
from pathlib import Path
from typing import Any

import pytest

from rewind_client.meanings import VERSION
from rewind_client.program import Program
from rewind_shell.saving import exercise_in, saved_in, source_part, write_script

from support.places import EXAMPLES, TOP

COMMANDS = ["run 4", "step g0.1", "back g0.1#1", "run 100"]
GOAL = {"printed": "1\n2", "end": "ended"}
pytestmark = pytest.mark.skipif(not shutil.which("node"), reason="there is no node")


def of_the_page(read: list[tuple[str, str]], write: list[dict[str, Any]]) -> Any:
    """What the page's own module opens and writes, run by node."""
    words = ["node", str(TOP / "page" / "test" / "filed.mjs")]
    given = json.dumps({"version": VERSION, "read": read, "write": write})
    done = subprocess.run(words, input=given, capture_output=True, text=True, check=False)
    assert done.returncode == 0, done.stderr
    return json.loads(done.stdout)


@pytest.fixture
def source() -> str:
    return (EXAMPLES / "lock_order.go").read_text()


def exercise(source: str) -> dict[str, Any]:
    return {"title": "Untie it", "source": source, "shows": "", "told": [], "task": "Let it end.", "hint": "", "before": COMMANDS[:1], "goal": GOAL}


def test_one_file_of_the_shell_is_opened_by_the_page(source: str, tmp_path: Path) -> None:
    program = Program(source.encode(), str(tmp_path / "lock_order.go"))
    path = tmp_path / "session.go"
    write_script(str(path), COMMANDS, program)
    opened = of_the_page([(path.name, path.read_text())], [])["opened"][0]
    assert opened == {"source": source, "commands": COMMANDS, "name": "session", "lesson": None, "version": VERSION, "digest": ""}


def test_a_script_of_the_shell_is_opened_by_the_page(source: str, tmp_path: Path) -> None:
    path = tmp_path / "lock_order.script"
    write_script(str(path), COMMANDS, Program(source.encode(), "lock_order.go"))
    opened = of_the_page([(path.name, path.read_text())], [])["opened"][0]
    assert (opened["source"], opened["commands"]) == (None, COMMANDS) and len(opened["digest"]) == 64


def test_what_the_page_saves_is_opened_by_the_shell(source: str) -> None:
    sentences = [{"text": "First.", "command": it} for it in COMMANDS]
    story: dict[str, Any] = {**exercise(source), "goal": None, "before": [], "shows": "two locks", "told": sentences}
    session, solved, told, begun = of_the_page([], [
        {"source": source, "commands": COMMANDS},
        {"source": source, "commands": COMMANDS, "lesson": exercise(source)},
        story,
        {**exercise(source), "told": []},
    ])["files"]  # fmt: skip
    for file in (session, solved, told):
        assert saved_in(file.encode()).commands == COMMANDS and source_part(file.encode()).decode() == source
    assert saved_in(begun.encode()).commands == COMMANDS[:1]
    assert exercise_in(solved.encode())[:2] == ["// exercise: Untie it", "// task: Let it end."] and not exercise_in(told.encode())


def test_an_exercise_keeps_its_task(source: str, tmp_path: Path) -> None:
    """The shell opens an exercise of the page, and saves what was done of it: the page has the task again."""
    (given,) = of_the_page([], [exercise(source)])["files"]
    path = tmp_path / "solved.go"
    write_script(str(path), COMMANDS, Program(given.encode(), str(tmp_path / "given.go")))
    opened = of_the_page([(path.name, path.read_text())], [])["opened"][0]
    assert (opened["commands"], opened["lesson"]) == (COMMANDS, exercise(source))
