"""What workers do beside the commands: they take the steps that are granted, and no others."""
from __future__ import annotations

import subprocess
import time
from pathlib import Path

import pytest

from support.places import SESSIONS
from support.program import Program
from support.session import SECONDS, Begin, comes

# Two goroutines that take 21 steps each, 20 of them by themselves.
SPINNING = """package main

func spin(n int) {
	for i := 0; i < n; i++ {
	}
}

func main() {
	go spin(9)
	go spin(9)
	select {}
}
"""
# One goroutine that takes 6,004 steps by itself, which are many batches.
COUNTING = SPINNING.replace("spin(9)", "spin(3000)", 1).replace("\tgo spin(9)\n", "")


def test_of_a_grant_of_42_steps_two_workers_take_all_and_no_more(begin: Begin) -> None:
    session = begin(SPINNING, "--workers", "2")
    session.ask_all(["step g0"] * 3 + ["free 42"])
    assert comes(lambda: session.ask("log")[-1] == "ok 45")
    session.ask("free 10")
    time.sleep(0.05)
    assert session.ask("log")[-1] == "ok 45"
    assert session.close().status == 0


def test_without_a_grant_no_step_is_taken(begin: Begin) -> None:
    session = begin(SPINNING, "--workers", "2")
    session.ask("step g0")
    time.sleep(0.05)
    assert session.ask("log")[-1] == "ok 1"
    assert session.close().status == 0


def test_a_grant_ends_in_the_middle_of_what_a_goroutine_could_do(begin: Begin) -> None:
    session = begin(COUNTING, "--workers", "1")
    session.ask_all(["step g0", "step g0", "free 1000"])
    assert comes(lambda: session.ask("log")[-1] == "ok 1002")
    assert session.ask("show g0.1")[-1] == "ok"
    time.sleep(0.05)
    assert session.ask("log")[-1] == "ok 1002"
    assert session.close().status == 0


def test_a_goroutine_that_runs_alone_is_taken_to_its_end_in_batches(begin: Begin) -> None:
    session = begin(COUNTING, "--workers", "1")
    session.ask_all(["step g0", "step g0", "free 1000000"])
    assert comes(lambda: session.ask("log")[-1] == "ok 6005")
    assert session.ask("show g0.1")[0] == "| g0.1 done 6003"
    assert session.close().status == 0


def test_workers_that_have_nothing_to_do_end_at_quit(begin: Begin) -> None:
    assert begin(SPINNING, "--workers", "64").close().status == 0


def has_grant(script: Path) -> bool:
    return any(line.split()[:1] == [b"free"] for line in script.read_bytes().splitlines())


SCRIPTS = [path for path in sorted(SESSIONS.glob("*.script")) if not has_grant(path)]


@pytest.mark.parametrize("script", SCRIPTS, ids=lambda path: str(path.stem))
def test_idle_workers_change_no_reply(script: Path, program: Program) -> None:
    """Beside four workers, an example session without a grant has the output that it has alone."""
    source = str(script.with_suffix(".go"))
    alone, beside = (program.run_words(words, script.read_bytes()) for words in ([source], ["--workers", "4", source]))
    assert alone[:3] == beside[:3]


def test_a_session_ends_with_its_workers_where_its_writer_fails(rewind: str, tmp_path: Path) -> None:
    """At the first reply that cannot be written."""
    source = tmp_path / "source.go"
    source.write_text(SPINNING, encoding="utf-8")
    words = [rewind, "--workers", "2", str(source)]
    with open("/dev/full", "w", encoding="utf-8") as full:
        ended = subprocess.run(words, input="step g0\nundo\n", stdout=full, stderr=subprocess.PIPE, text=True, timeout=SECONDS, check=False)
    assert (ended.returncode, ended.stderr) == (3, "rewind: write\n")
