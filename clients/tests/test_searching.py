"""A search of all schedules, as the clients tell it: in the shell, before a hunt, and in the library."""
from __future__ import annotations

import json
import os
import re
import subprocess
import sys
from collections.abc import Callable, Sequence
from pathlib import Path
from typing import Optional

import pytest

from rewind_client.errors import Cancelled, ProcessError, RewindError
from rewind_client.opening import open_session
from rewind_client.searching import Answer, Searched, ahead, search, search_from

from support.places import CLIENTS, EXAMPLES

# What comes of a search of each example.
EXPECTED = {
    "double_close": "panic",
    "forgotten_unlock": "deadlock",
    "leak": "",
    "lock_order": "deadlock",
    "lost_update": "",
    "off_by_one": "deadlock",
    "philosophers": "deadlock",
    "send_on_closed": "panic",
    "unbuffered": "deadlock",
    "worker_pool": "panic",
}
# A deadlock to which a round robin does not come: the other goroutine takes what is in the channel.
THIEF = """package main

func thief(c chan int) {
	select {
	case <-c:
	default:
	}
}

func main() {
	c := make(chan int, 1)
	go thief(c)
	c <- 1
	<-c
}
"""
Run = Callable[..., "subprocess.CompletedProcess[str]"]


def example(name: str) -> str:
    return str(EXAMPLES / f"{name}.go")


def client(name: str, rewind: str, words: Sequence[str], given: str, state: Path) -> "subprocess.CompletedProcess[str]":
    environment = {**os.environ, "XDG_STATE_HOME": str(state), "REWIND": rewind}
    command = [sys.executable, str(CLIENTS / name), *words]
    return subprocess.run(command, input=given, capture_output=True, text=True, env=environment, timeout=120)


@pytest.fixture
def talk(rewind: str, tmp_path: Path) -> Run:
    """Gives commands to a shell."""
    return lambda source, *lines: client("rewind-shell", rewind, [source], "".join(line + "\n" for line in lines), tmp_path)


@pytest.fixture
def hunt(rewind: str, tmp_path: Path) -> Run:
    """Hunts, by few schedules."""
    return lambda *words: client("rewind-hunt", rewind, ["--jobs", "1", "--runs", "5", *words], "", tmp_path)


@pytest.mark.parametrize("name", EXPECTED)
def test_an_example(name: str, rewind: str) -> None:
    """The commands that are found come to the bad end that is told."""
    found = search(rewind, example(name))
    assert found.answer is (Answer.BAD if EXPECTED[name] else Answer.NONE_BAD), found
    assert EXPECTED[name] in found.sentence
    if EXPECTED[name]:
        session = open_session(rewind, example(name))
        replies = session.core.ask_all(found.commands)
        assert all(reply.is_ok for reply in replies)
        assert session.ask("run 1").last == {"deadlock": "ok 0 stuck", "panic": "ok 0 fault"}[EXPECTED[name]]
        session.end()


def test_from_the_present_state(rewind: str) -> None:
    """The schedule goes on from there; after other steps it is not followed."""
    session = open_session(rewind, example("lock_order"))
    with pytest.raises(RewindError, match="no schedule is found yet"):
        ahead(session)
    session.ask("run 5")
    found = search_from(rewind, session, 1000)
    assert list(found.commands) == [*["step g0"] * 5, *ahead(session)]
    session.ask(ahead(session)[0])
    assert len(ahead(session)) == len(found.commands) - 6
    session.end()


def test_a_limit_is_no_answer(rewind: str) -> None:
    assert search(rewind, example("lock_order"), states=3).answer is Answer.NOT_FINISHED
    assert search(rewind, example("starved_select"), seconds=0.2).answer is Answer.NOT_FINISHED
    with pytest.raises(Cancelled):
        search(rewind, example("starved_select"), cancelled=lambda: True)


def test_a_search_that_cannot_be_made(rewind: str, tmp_path: Path) -> None:
    with pytest.raises(ProcessError):
        search(rewind, str(tmp_path / "missing.go"))
    with pytest.raises(ProcessError):
        search(str(tmp_path / "missing"), example("lock_order"))
    with pytest.raises(ProcessError, match="refused"):
        search(rewind, example("lock_order"), ["step g0.7"])


def test_search_and_follow_in_the_shell(talk: Run) -> None:
    told = talk(example("lock_order"), "run 5", "search", "follow", "search", "undo", "step g0.1", "follow").stdout
    assert "ends in a deadlock" in told and "'follow' takes these steps" in told
    assert "commands of the schedule were taken, 0 of them refused" in told and "Deadlock: g0, g0.1, g0.2 wait" in told
    assert "the program stands there" in told


def test_words_that_do_not_fit(talk: Run) -> None:
    told = talk(example("lost_update"), "follow", "search 0", "search x", "search 1 2", "search", "follow").stdout
    assert told.count("no schedule is found yet") == 2
    assert told.count("search may have the number of states") == 2 and "is not taken" in told
    assert re.search(r"no schedule ends badly: all \d+ states seen$", told, re.MULTILINE)


def test_blame_in_the_shell(talk: Run) -> None:
    told = talk(example("lock_order"), "blame", "search", "follow", "blame", "back g0.2#2", "blame", "blame x").stdout
    assert told.count("no step is to blame") == 2 and "before this step some schedule ends well, and after it none does" in told
    assert re.search(r"^    g0\.2#2 +take +4: func lock", told, re.MULTILINE), told
    assert re.search(r"'back g0\.2#2' takes it back, with \d+ that depend on it", told)
    assert "blame may have the number of states" in told


def test_why_ends_with_the_step_to_blame(talk: Run) -> None:
    told = talk(example("lock_order"), "search", "follow", "why").stdout
    blamed = re.search(r"^g0\.2#2 is to blame: before it some schedule ends well, and after it none does\.\n    g0\.2#2 +take ", told, re.MULTILINE)
    assert blamed and "'back g0.2#2' takes it back, with" in told, told


def test_why_says_that_no_schedule_ends_well(talk: Run) -> None:
    assert talk(example("unbuffered"), "run 9", "why").stdout.splitlines()[-1] == "No schedule of the program ends well."


def test_why_names_no_step_where_nothing_is_bad(talk: Run) -> None:
    assert "to blame" not in talk(example("lost_update"), "why", "run 5000", "why").stdout


def test_a_hunt_searches_first(hunt: Run, tmp_path: Path) -> None:
    assert re.search(r"^No schedule ends badly: all \d+ states seen\. Leaks and outputs ", hunt(example("lost_update")).stdout, re.MULTILINE)
    thief = tmp_path / "thief.go"
    thief.write_text(THIEF)
    done = hunt(str(thief), "--scheduler", "round-robin")
    assert done.returncode == 1 and "found by a search of all schedules: a schedule of " in done.stdout
    assert hunt(str(thief), "--scheduler", "round-robin", "--ignore", "deadlock").returncode == 0
    record = json.loads(hunt(str(thief), "--scheduler", "round-robin", "--json").stdout)
    assert record["status"] == 1 and record["found"] == [] and record["search"]["answer"] == "a schedule ends badly"
    assert record["search"]["states"] is None and record["search"]["commands"]


@pytest.mark.parametrize(
    ("sentence", "states"),
    [
        ("no schedule ends badly: all 1040 states seen", 1040),
        ("no schedule ends badly: its one state seen", 1),
        ("a schedule of 24 steps ends in a deadlock", None),
    ],
)
def test_how_many_states_were_seen(sentence: str, states: Optional[int]) -> None:
    assert Searched(Answer.NONE_BAD, sentence).states == states
