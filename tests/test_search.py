"""Searches of all schedules: what is told of the examples, and that each schedule that is written comes to its end.

The numbers of steps are those of a plain model of the rules that searches with fewest steps first.
"""
from __future__ import annotations

import re
from pathlib import Path
from typing import NamedTuple

import pytest

from support.places import EXAMPLES, SESSIONS
from support.program import Program

NONE, REFUSED, BAD, LIMIT = 0, 2, 4, 5
STUCK, FAULT = "stuck", "fault"
WORDS = {STUCK: "a deadlock", FAULT: "a panic"}


class Bad(NamedTuple):
    """A shortest bad end: how many steps lead to it, and how a run is told to end there."""

    steps: int
    end: str


# What each example comes to: a shortest bad end, or none.
EXPECTED = {
    "double_close": Bad(20, FAULT),
    "forgotten_unlock": Bad(32, STUCK),
    "leak": None,
    "lock_order": Bad(24, STUCK),
    "lost_update": None,
    "off_by_one": Bad(37, STUCK),
    "philosophers": Bad(24, STUCK),
    "send_on_closed": Bad(16, FAULT),
    "unbuffered": Bad(3, STUCK),
    "worker_pool": Bad(49, FAULT),
}
# An endless loop hides no fault of another goroutine.
ENDLESS = """package main

func spin() {
	for {
	}
}

func other(c chan int, z int) {
	v := <-c
	println(1 / (z - v))
}

func main() {
	c := make(chan int)
	go spin()
	go other(c, 1)
	c <- 1
	<-c
}
"""
# The poll divides by zero where it comes before the close.
POLL = """package main

func closer(c chan int) {
	close(c)
}

func poll(c chan int) {
	x := 0
	select {
	case x = <-c:
	default:
		x = 7
	}
	println(1 / (x - 7))
}

func main() {
	c := make(chan int)
	go closer(c)
	go poll(c)
	select {}
}
"""
# It is stuck where the second case is taken.
SECOND = """package main

func give(c chan int) {
	c <- 1
}

func main() {
	a := make(chan int)
	b := make(chan int)
	go give(a)
	go give(b)
	select {
	case <-a:
	case <-b:
		<-b
	}
}
"""
# It counts for ever.
COUNTING = """package main

func count() {
	for n := 0; ; n++ {
	}
}

func main() {
	go count()
	select {}
}
"""
# It sends ever greater numbers, and never ends.
SENDING = """package main

func main() {
	c := make(chan int, 1)
	for n := 0; ; n++ {
		c <- n
		<-c
	}
}
"""


class Searched(NamedTuple):
    status: int
    commands: list[str]
    told: str


def search(program: Program, path: Path, *words: str, script: str = "", kind: str = "--search") -> Searched:
    """A search of a file; `--after -` takes the script."""
    ran = program.run_words([kind, str(path), *words], script.encode())
    return Searched(ran.status, ran.output.decode().splitlines(), ran.error.decode())


def written(folder: Path, source: str) -> Path:
    path = folder / "program.go"
    path.write_text(source)
    return path


def check_end(program: Program, path: Path, commands: list[str], end: str) -> None:
    """Each command takes a step, and the run then ends so."""
    replies = program.run(path.read_bytes(), "".join(f"{it}\n" for it in [*commands, "run 1"]).encode()).output.decode().splitlines()
    assert all(it.startswith("ok ") for it in replies)
    assert replies[-1] == f"ok 0 {end}"
    assert len(replies) == len(commands) + 1


def seen(found: Searched) -> int:
    """How many states were seen, where no schedule ends badly."""
    told = re.fullmatch(r"no schedule ends badly: all (\d+) states seen\n", found.told)
    assert told, found.told
    return int(told[1])


@pytest.mark.parametrize("name", EXPECTED)
def test_an_example_comes_to_its_shortest_bad_end_or_to_none(name: str, program: Program) -> None:
    path = EXAMPLES / f"{name}.go"
    bad = EXPECTED[name]
    found = search(program, path)
    if bad is None:
        assert (found.status, found.commands) == (NONE, [])
        assert seen(found) > 0
        return
    assert (found.status, len(found.commands)) == (BAD, bad.steps)
    assert found.told == f"a schedule of {bad.steps} steps ends in {WORDS[bad.end]}\n"
    check_end(program, path, found.commands, bad.end)


@pytest.mark.parametrize("name", [it for it in EXPECTED if EXPECTED[it] is None])
def test_as_many_states_are_told_as_are_kept(name: str, program: Program) -> None:
    """A limit of so many states lets the search end, and one of fewer does not."""
    path = EXAMPLES / f"{name}.go"
    whole = search(program, path)
    assert search(program, path, "--states", str(seen(whole))) == whole
    short = search(program, path, "--states", str(seen(whole) - 1))
    assert (short.status, short.commands) == (LIMIT, [])


def test_a_single_state_is_told_as_one(program: Program, tmp_path: Path) -> None:
    found = search(program, written(tmp_path, "package main\n\nfunc main() {\n\tfor {\n\t}\n}\n"))
    assert found == (NONE, [], "no schedule ends badly: its one state seen\n")


def test_a_leak_is_a_bad_end_where_that_is_asked(program: Program) -> None:
    path = SESSIONS / "leaked_goroutine.go"
    found = search(program, path, "--leaks")
    assert (found.status, found.told) == (BAD, "a schedule of 23 steps ends in a leak\n")
    check_end(program, path, found.commands, "ended")
    assert search(program, path).status == NONE


def test_no_goroutine_is_left_in_a_program_that_waits_for_all(program: Program) -> None:
    assert search(program, EXAMPLES / "lost_update.go", "--leaks") == search(program, EXAMPLES / "lost_update.go")


def test_the_example_that_counts_for_ever_meets_a_limit(program: Program) -> None:
    found = search(program, EXAMPLES / "starved_select.go", "--states", "200")
    assert (found.status, found.commands) == (LIMIT, [])
    assert found.told.startswith("not finished: 200 states seen, and no schedule ends badly within ")


@pytest.mark.parametrize(("source", "end"), [(ENDLESS, FAULT), (POLL, FAULT), (SECOND, STUCK)])
def test_a_schedule_that_takes_an_order_or_a_case_is_found(source: str, end: str, program: Program, tmp_path: Path) -> None:
    path = written(tmp_path, source)
    found = search(program, path)
    assert found.status == BAD
    check_end(program, path, found.commands, end)


def test_a_case_that_is_picked_is_written(program: Program, tmp_path: Path) -> None:
    sends = "\ta <- 1\n\tb <- 1\n"
    path = written(tmp_path, SECOND.replace("make(chan int)", "make(chan int, 1)").replace("\tgo give(a)\n\tgo give(b)\n", sends))
    found = search(program, path)
    assert found.status == BAD
    assert "step g0 2" in found.commands
    check_end(program, path, found.commands, STUCK)


def test_the_search_begins_where_the_script_leaves_the_program(program: Program, tmp_path: Path) -> None:
    """The script decides what the poll finds."""
    path = written(tmp_path, POLL)
    script = "".join("step g0\n" for _ in range(4)) + "step g0.1\nstep g0.1\n"
    whole = search(program, path)
    assert whole.status == BAD
    closed_first = search(program, path, "--after", "-", script=script)
    # No goroutine is left that could go on, so it is stuck in the end.
    assert closed_first.status == BAD
    assert closed_first.commands[:6] == script.splitlines()
    check_end(program, path, closed_first.commands, STUCK)


def test_a_script_is_read_from_a_file_up_to_quit(program: Program, tmp_path: Path) -> None:
    script = tmp_path / "script"
    script.write_text("step g0\n\n log \nquit\nstrange\n")
    found = search(program, EXAMPLES / "unbuffered.go", "--after", str(script))
    assert (found.status, found.commands) == (BAD, ["step g0"] * 3)


def test_steps_that_the_script_takes_back_are_left_out(program: Program) -> None:
    script = "run 2\nundo\nundo\n"
    found = search(program, EXAMPLES / "unbuffered.go", "--after", "-", script=script)
    assert (found.status, found.commands) == (BAD, ["step g0"] * 3)


@pytest.mark.parametrize("line", ["step g7", "step", "back g0#9", "redo", "step g0 1", "show g0.9", "step g00"])
def test_a_refused_command_of_the_script_is_named_by_its_line(line: str, program: Program) -> None:
    for kind in ("--search", "--blame"):
        found = search(program, EXAMPLES / "leak.go", "--after", "-", script=f"run 3\n\n{line}\nstep g0\n", kind=kind)
        assert found == (REFUSED, [], "rewind: the command in line 3 of - is refused\n")


def test_files_that_cannot_be_read_or_are_refused_are_named(program: Program, tmp_path: Path) -> None:
    leak = EXAMPLES / "leak.go"
    assert search(program, tmp_path / "none.go") == (1, [], f"rewind: cannot read {tmp_path}/none.go\n")
    assert search(program, leak, "--after", f"{tmp_path}/none") == (1, [], f"rewind: cannot read {tmp_path}/none\n")
    assert search(program, leak, "--after", str(tmp_path)) == (1, [], f"rewind: cannot read {tmp_path}\n")
    assert search(program, written(tmp_path, "package main\n")).status == 1


@pytest.mark.parametrize(
    "words",
    [
        ["--search", "a.go", "b.go"],
        ["--search", "a.go", "--blame", "a.go", "--after", "-"],
        ["--search", "a.go", "--check", "a.go"],
        ["--search", "a.go", "--explain", "N1"],
        ["--search", "a.go", "--workers", "2"],
        ["--search", "a.go", "--states", "0"],
        ["--search", "a.go", "--states", "1000000001"],
        ["--search", "a.go", "--states", "many"],
        ["--blame", "a.go"],
        ["--blame", "a.go", "--states", "5"],
        ["--check", "a.go", "--after", "-"],
        ["--explain", "N1", "--states", "5"],
        ["a.go", "--after", "-"],
        ["a.go", "--states", "5"],
        ["a.go", "--leaks"],
        ["--check", "a.go", "--leaks"],
        ["--blame", "a.go", "--after", "-", "--leaks"],
        ["--leaks"],
        ["--after", "-"],
    ],
)
def test_options_that_do_not_go_together_are_refused(words: list[str], program: Program) -> None:
    ran = program.run_words(words)
    assert (ran.status, ran.output) == (REFUSED, b"")


def test_the_step_to_blame_is_the_first_after_which_none_ends_well(program: Program) -> None:
    path = EXAMPLES / "philosophers.go"
    script = "".join(f"{it}\n" for it in search(program, path).commands)
    blamed = search(program, path, "--after", "-", script=script, kind="--blame")
    assert (blamed.status, len(blamed.commands)) == (0, 1)
    assert blamed.told == "before this step some schedule ends well, and after it none does\n"
    # The log up to the step, with and without it.
    replies = program.run(path.read_bytes(), f"{script}log\n".encode()).output.decode().splitlines()
    steps = [it.split()[1] for it in replies if it.startswith("| ")]
    place = steps.index(blamed.commands[0])
    lines = script.splitlines(keepends=True)
    before = search(program, path, "--after", "-", script="".join(lines[:place]), kind="--blame")
    assert before == (0, [], "no step is to blame: some schedule ends well from there\n")
    behind = search(program, path, "--after", "-", script="".join(lines[: place + 1]), kind="--blame")
    assert behind == blamed


def test_a_program_that_never_ends_well_has_no_step_to_blame(program: Program) -> None:
    blamed = search(program, EXAMPLES / "unbuffered.go", "--after", "-", kind="--blame")
    assert blamed == (0, [], "no schedule of the program ends well\n")


def test_a_blame_that_meets_a_limit_says_so(program: Program, tmp_path: Path) -> None:
    blamed = search(program, written(tmp_path, SENDING), "--after", "-", "--states", "200", script="run 5\n", kind="--blame")
    assert blamed == (LIMIT, [], "not finished: 200 states seen\n")


def test_a_loop_that_counts_by_itself_fills_the_log(program: Program, tmp_path: Path) -> None:
    found = search(program, written(tmp_path, COUNTING), "--states", "200")
    assert (found.status, found.commands) == (LIMIT, [])
    assert re.fullmatch(r"not finished: .*, and no schedule ends badly within \d+ steps\n", found.told)


def test_a_shorter_schedule_may_be_left_open_by_the_limit(program: Program) -> None:
    """With few states one that ends badly is found, and whether it is the shortest is not."""
    found = search(program, EXAMPLES / "philosophers.go", "--states", "60")
    assert found.status in (BAD, LIMIT)
    if found.status == BAD:
        check_end(program, EXAMPLES / "philosophers.go", found.commands, STUCK)
