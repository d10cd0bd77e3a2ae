"""The stories of the examples: what the shell says is what their transcripts have.

    tests/run.sh clients/tests/test_examples.py --record      writes the transcripts anew from the commands in them
"""
from __future__ import annotations

import re
import subprocess
import sys
from pathlib import Path

import pytest

from support.places import CLIENTS, EXAMPLES

SHELL = CLIENTS / "rewind-shell"
STORIES = sorted(EXAMPLES.glob("*.transcript"))
MOST_COMMANDS = 3


def parts(text: str) -> "tuple[list[str], list[str]]":
    """The remarks of a story, and its commands."""
    lines = text.splitlines()
    return [it for it in lines if it.startswith("# ")], [it[2:] for it in lines if it.startswith("> ")]


def told(story: Path) -> str:
    """A story as the shell tells it now."""
    remarks, commands = parts(story.read_text())
    words = [sys.executable, str(SHELL), story.with_suffix(".go").name]
    given = "".join(line + "\n" for line in commands)
    done = subprocess.run(words, input=given, stdout=subprocess.PIPE, text=True, cwd=EXAMPLES, timeout=60, check=True)
    return "".join(line + "\n" for line in remarks) + done.stdout


@pytest.mark.parametrize("story", STORIES, ids=[story.stem for story in STORIES])
def test_a_story(story: Path, pytestconfig: pytest.Config) -> None:
    if pytestconfig.getoption("--record"):
        story.write_text(told(story), encoding="utf-8")
    assert told(story) == story.read_text()
    assert len(parts(story.read_text())[1]) <= MOST_COMMANDS


def test_each_example_has_a_story() -> None:
    assert [it.stem for it in STORIES] == sorted(it.stem for it in EXAMPLES.glob("*.go"))


def test_the_session_of_the_readme() -> None:
    """What the README shows of a session is what the shell says, but for the prompt."""
    lines = (CLIENTS / "README.md").read_text().splitlines()
    begin = next(at for at, line in enumerate(lines) if line.endswith("rewind-shell examples/lock_order.go"))
    shown = [line[4:] for line in lines[begin + 1 : lines.index("", begin)]]
    echoed = [re.sub(r"^\(rewind \S+\) ", "> ", line) for line in shown]
    given = "".join(line[2:] + "\n" for line in echoed if line.startswith("> "))
    words = [sys.executable, str(SHELL), str(EXAMPLES / "lock_order.go")]
    done = subprocess.run(words, input=given, stdout=subprocess.PIPE, text=True, timeout=60, check=True)
    assert done.stdout.splitlines() == echoed
