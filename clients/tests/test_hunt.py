"""The hunt: it finds what is bad in each example, and its scripts lead there."""
from __future__ import annotations

import io
import os
import re
import signal
import subprocess
import sys
import time
from collections.abc import Callable, Iterator
from pathlib import Path
from typing import Optional

import pytest

from rewind_client.core import Core
from rewind_client.finding import start
from rewind_client.replies import KindWord, Reason, ran
from rewind_hunt import hunting
from rewind_hunt.hunting import Found, Hunt, Plan, here, hunt
from rewind_hunt.main import Progress
from rewind_hunt.outcomes import Kind, Outcome
from rewind_hunt.report import Report, expecting
from rewind_hunt.schedules import End
from rewind_hunt.scripts import Reducer, Script
from rewind_hunt.shortening import Shortener
from rewind_hunt.story import Story
from rewind_hunt.ways import Ways

from support.begun import Begun
from support.places import CLIENTS, EXAMPLES

COMMAND = [sys.executable, str(CLIENTS / "rewind-hunt")]
# What counts as bad in each example. A select is starved in a schedule that does not end, whatever its other schedules do.
BAD = {
    "lock_order": Kind.DEADLOCK,
    "lost_update": Kind.OUTPUT,
    "leak": Kind.LEAK,
    "send_on_closed": Kind.PANIC,
    "worker_pool": Kind.PANIC,
    "unbuffered": Kind.DEADLOCK,
    "starved_select": Kind.UNENDED,
    "double_close": Kind.PANIC,
    "off_by_one": Kind.DEADLOCK,
    "philosophers": Kind.DEADLOCK,
}
EXPECTED = {"lost_update": "counter 4"}
RUNS = 200
GOOD = """package main

func double(in <-chan int, out chan<- int) {
	out <- 2 * <-in
}

func main() {
	in, out := make(chan int), make(chan int)
	go double(in, out)
	in <- 21
	println(<-out)
}
"""
# One goroutine that counts has nothing to do with the deadlock.
UNRELATED = """package main

func count(n int) {
	for i := 0; i < n; i++ {
	}
}

func lock(first, second chan int, done chan bool) {
	<-first
	<-second
	second <- 1
	first <- 1
	done <- true
}

func main() {
	a, b, done := make(chan int, 1), make(chan int, 1), make(chan bool)
	a <- 1
	b <- 1
	go count(40)
	go lock(a, b, done)
	go lock(b, a, done)
	<-done
	<-done
}
"""
# One goroutine may print behind the end of `main`, and another one waits for ever.
PRINTED_LATE = """package main

func late(n int) {
	for i := 0; i < n; i++ {
	}
	println("late")
}

func wait(c chan int) {
	<-c
}

func main() {
	go late(3)
	go wait(make(chan int))
	println("main")
}
"""
# A goroutine holds a number and never ends; two others read and write it.
SERVED = """package main

func hold(read, write chan int) {
	n := 0
	for {
		select {
		case read <- n:
		case n = <-write:
		}
	}
}

func add(read, write chan int, done chan bool) {
	n := <-read
	write <- n + 1
	done <- true
}

func main() {
	read, write, done := make(chan int), make(chan int), make(chan bool)
	go hold(read, write)
	go add(read, write, done)
	go add(read, write, done)
	<-done
	<-done
	println(<-read)
}
"""
# The fault is in the second clause of a select: the first clause is never taken before it.
IN_A_SELECT = """package main

func closer(c chan int) {
	close(c)
}

func main() {
	never, c := make(chan int), make(chan int, 1)
	go closer(c)
	select {
	case <-never:
	case c <- 1:
	}
	println(len(c))
}
"""
# The one that is late is left where the other one was first.
TIMEOUT = """package main

func late(out chan int) {
	out <- 1
}

func main() {
	out := make(chan int)
	go late(out)
	select {
	case n := <-out:
		println(n)
	default:
		println("none")
	}
}
"""
IN_ANY_ORDER = """package main

func tell(n int, done chan bool) {
	println(n)
	done <- true
}

func main() {
	done := make(chan bool)
	go tell(1, done)
	go tell(2, done)
	<-done
	<-done
}
"""


def plan_of(rewind: str, path: Path, **given: object) -> Plan:
    expected = EXPECTED.get(path.stem)
    pattern = re.compile(expected) if expected else None
    values: dict[str, object] = {"runs": RUNS, "expected": pattern, **given}
    return Plan(rewind, str(path), str(path), **values)  # type: ignore[arg-type]


def hunted(plan: Plan, wanted: Optional[Kind] = None) -> Hunt:
    """The schedules of a plan, up to the first one of a kind; a leak is one only beside a schedule that has it not."""
    found = Hunt(plan)
    outcomes = here(plan)
    for outcome in outcomes:
        assert isinstance(outcome, Outcome)
        found.add(outcome)
        if wanted and any(it.kind is wanted for it in found.groups()):
            break
    outcomes.close()
    return found


def first_of(found: Hunt, kind: Kind) -> tuple[Found, Outcome]:
    """What was found of a kind, and the first schedule that has it against it."""
    return next((about, outcomes[0]) for about, outcomes in found.groups().items() if about.kind is kind)


def script_of(reducer: Reducer, kind: Kind) -> Script:
    about, outcome = first_of(reducer.hunted, kind)
    script = reducer.script(outcome, about)
    assert script
    return script


@pytest.fixture
def source(tmp_path: Path) -> Callable[[str], Path]:
    def write(text: str) -> Path:
        path = tmp_path / "source.go"
        path.write_text(text)
        return path

    return write


@pytest.fixture
def reducers() -> Iterator[Callable[[Hunt], Reducer]]:
    made: list[Reducer] = []

    def make(found: Hunt) -> Reducer:
        made.append(Reducer(found, found.plan.program()))
        return made[-1]

    yield make
    for one in made:
        one.end()


def standing(plan: Plan, commands: list[str]) -> Core:
    """A session of its own behind some commands, none of which is refused."""
    core = start(plan.rewind, plan.path)
    assert all(reply.is_ok for reply in core.ask_all(commands)), commands
    return core


def reason_behind(plan: Plan, commands: list[str]) -> str:
    """How a run by turns goes on behind some commands, or why it cannot."""
    core = standing(plan, commands)
    try:
        reply = core.ask("run 5000")
        return (core.end or Reason.MEMORY).value if reply.code == "N1" else ran(reply).reason.value
    finally:
        core.process.end()


@pytest.mark.parametrize("name", BAD)
def test_each_example_is_found_bad(name: str, rewind: str, reducers: Callable[[Hunt], Reducer]) -> None:
    """Within 200 schedules; and the script and the short commands lead to the same in a session of its own."""
    found = hunted(plan_of(rewind, EXAMPLES / (name + ".go")), BAD[name])
    reducer = reducers(found)
    about, outcome = first_of(found, BAD[name])
    script = reducer.script(outcome, about)
    assert script and len(script.entries) <= script.of_steps
    reasons = {Kind.PANIC: "fault", Kind.DEADLOCK: "stuck", Kind.UNENDED: "count"}
    assert reason_behind(found.plan, list(script.commands)) == reasons.get(BAD[name], "ended")
    short = Shortener(reducer, about, found.groups()[about]).short()
    assert short and len(short.commands) <= len(script.commands) + 1
    assert reason_behind(found.plan, list(short.commands)[:-1]) == reasons.get(BAD[name], "ended")


def test_a_script_has_no_step_that_does_not_matter(rewind: str, source: Callable[[str], Path], reducers: Callable[[Hunt], Reducer]) -> None:
    found = hunted(plan_of(rewind, source(UNRELATED)), Kind.DEADLOCK)
    script = script_of(reducers(found), Kind.DEADLOCK)
    taken = {entry.step.split("#")[0] for entry in script.entries}
    assert "g0.1" not in taken and {"g0.2", "g0.3"} <= taken
    core = standing(found.plan, list(script.commands))
    shown = [core.show(name) for name in ("g0.2", "g0.3")]
    assert [one.state.value for one in shown if one] == ["waiting", "waiting"]
    core.process.end()


def test_steps_that_print_stay_in_their_order(rewind: str, reducers: Callable[[Hunt], Reducer]) -> None:
    plan = plan_of(rewind, EXAMPLES / "lost_update.go")
    found = hunted(plan, Kind.OUTPUT)
    script = script_of(reducers(found), Kind.OUTPUT)
    core = standing(plan, list(script.commands))
    assert tuple(core.console()) == script.outcome.console and core.end is Reason.ENDED
    core.process.end()


def test_what_is_printed_behind_the_end_is_not_counted(rewind: str, source: Callable[[str], Path], reducers: Callable[[Hunt], Reducer]) -> None:
    """To see who is left the others go on at the end of `main`; what they print then was never printed."""
    plan = plan_of(rewind, source(PRINTED_LATE), expected=re.compile("never"))
    found = hunted(plan)
    late = [it for it in found.outcomes if it.left and it.console == ("main",)]
    assert late
    script = reducers(found).script(late[0], Found(Kind.OUTPUT))
    assert script
    core = standing(plan, list(script.commands))
    assert core.console() == ["main"]
    core.process.end()


def test_a_fault_in_a_clause(rewind: str, source: Callable[[str], Path], reducers: Callable[[Hunt], Reducer]) -> None:
    found = hunted(plan_of(rewind, source(IN_A_SELECT)), Kind.PANIC)
    script = script_of(reducers(found), Kind.PANIC)
    assert script.entries[-1].kind.fault == "SendOnClosed"
    core = standing(found.plan, list(script.commands))
    assert core.end is Reason.FAULT
    core.process.end()


@pytest.mark.parametrize("name, prints", [
    ("philosophers", "all have eaten"), ("worker_pool", "sum of squares 55"), ("lost_update", "counter 4 wanted 4"),
])  # fmt: skip
def test_the_way_back_ends_well(name: str, prints: str, rewind: str, reducers: Callable[[Hunt], Reducer]) -> None:
    """It is tried behind the commands under which it stands."""
    plan = plan_of(rewind, EXAMPLES / (name + ".go"))
    found = hunted(plan, BAD[name])
    reducer, about = reducers(found), first_of(found, BAD[name])[0]
    short = Shortener(reducer, about, found.groups()[about]).short()
    assert short
    way = Ways(reducer, short.commands, about).search().way
    assert way
    core = standing(plan, [*short.commands, "back " + way.step, *way.commands])
    assert core.end is Reason.ENDED and core.console()[-1] == prints
    core.process.end()
    counted = standing(plan, list(short.commands))
    assert len(counted.back(way.step)) == way.taken_back
    counted.process.end()


def test_a_search_for_a_way_back_that_the_clock_ends(
    rewind: str, reducers: Callable[[Hunt], Reducer], monkeypatch: pytest.MonkeyPatch
) -> None:
    from rewind_hunt import ways

    monkeypatch.setattr(ways, "SECONDS", 0.0)
    found = hunted(plan_of(rewind, EXAMPLES / "philosophers.go"), Kind.DEADLOCK)
    about, outcome = first_of(found, Kind.DEADLOCK)
    search = Ways(reducers(found), outcome_commands(reducers(found), outcome), about).search()
    assert search.way is None and search.tried < search.steps
    told = Report(found, found.plan.program()).way(search, about)
    assert f"not found. Only the last 0 steps of {search.steps} were tried" in told


def outcome_commands(reducer: Reducer, outcome: Outcome) -> list[str]:
    return reducer.scheduler.take(outcome.number).commands()


def test_each_step_is_told(rewind: str, reducers: Callable[[Hunt], Reducer]) -> None:
    plan = plan_of(rewind, EXAMPLES / "worker_pool.go")
    script = script_of(reducers(hunted(plan, Kind.PANIC)), Kind.PANIC)
    told = Story(plan.begin, plan.program()).told(script)
    assert sum(one.times for one in told) == len(script.entries)
    sentences = " / ".join(one.sentence for one in told)
    assert "g0 makes jobs (g0/c1)" in sentences and "starts g0.1 (worker)" in sentences and "closes results (g0/c2)" in sentences
    assert "stops with panic: send on closed channel (SendOnClosed) at results (g0/c2)" in told[-1].sentence


def test_a_schedule_is_that_of_its_seed_and_number(rewind: str) -> None:
    """Whatever the number of processes."""
    path = EXAMPLES / "philosophers.go"
    alone = hunted(plan_of(rewind, path, runs=40))
    together = hunt(plan_of(rewind, path, runs=40, jobs=2), lambda _: None)
    other = hunted(plan_of(rewind, path, runs=40, seed=2))
    assert alone.outcomes == together.outcomes
    assert alone.outcomes != other.outcomes


def test_a_system_without_locks_between_processes(rewind: str, monkeypatch: pytest.MonkeyPatch) -> None:
    """One process finds what several do."""

    def refuses(*_: object, **__: object) -> None:
        raise OSError(38, "Function not implemented")

    together = hunt(plan_of(rewind, EXAMPLES / "philosophers.go", runs=20, jobs=2), lambda _: None)
    monkeypatch.setattr(hunting, "ProcessPoolExecutor", refuses)
    assert hunt(plan_of(rewind, EXAMPLES / "philosophers.go", runs=20, jobs=2), lambda _: None).outcomes == together.outcomes


def test_every_manner_is_a_schedule_of_the_program(rewind: str) -> None:
    """The steps of each schedule are those of a session that takes the same commands."""
    plan = plan_of(rewind, EXAMPLES / "starved_select.go", most_steps=60, seed=3)
    reducer = Reducer(Hunt(plan), plan.program())
    for number in range(12):
        schedule = reducer.scheduler.take(number)
        core = standing(plan, schedule.commands())
        assert core.log() == schedule.entries
        core.process.end()
    reducer.end()


def test_a_hunt_goes_on_behind_a_restart(rewind: str, monkeypatch: pytest.MonkeyPatch) -> None:
    from rewind_hunt import schedules

    before = hunted(plan_of(rewind, EXAMPLES / "lock_order.go", runs=12)).outcomes
    monkeypatch.setattr(schedules, "MOST_COMMANDS", 100)
    assert hunted(plan_of(rewind, EXAMPLES / "lock_order.go", runs=12)).outcomes == before


# The command.


def run(rewind: str, *words: str) -> "subprocess.CompletedProcess[str]":
    environment = {**os.environ, "REWIND": rewind}
    return subprocess.run([*COMMAND, "--jobs", "1", *words], capture_output=True, text=True, env=environment, check=False, timeout=60)


def test_nothing_found(rewind: str, source: Callable[[str], Path]) -> None:
    done = run(rewind, "--runs", "30", str(source(GOOD)))
    assert done.returncode == 0 and done.stderr == ""
    assert "    30  ended            42\n" in done.stdout
    assert done.stdout.endswith("Leaks and outputs are hunted by chance, and may still be there.\n")


def test_something_found(rewind: str, tmp_path: Path) -> None:
    kept = tmp_path / "kept.script"
    done = run(rewind, "--runs", "20", "--script", str(kept), str(EXAMPLES / "lock_order.go"))
    assert done.returncode == 1 and done.stderr == ""
    for part in ("deadlock: no goroutine can go on", "In short, ", "Where to go back: 'back ", "A cycle: "):
        assert part in done.stdout
    assert "Step by step" not in done.stdout and len(done.stdout.splitlines()) <= 40
    assert "Step by step" in run(rewind, "--runs", "20", "--full", str(EXAMPLES / "lock_order.go")).stdout
    replies = subprocess.run([rewind, str(EXAMPLES / "lock_order.go")], input=kept.read_text() + "run 9\n", capture_output=True, text=True)
    assert replies.stdout.splitlines()[0] == "? bad command" and replies.stdout.splitlines()[-1].endswith(" stuck")
    assert kept.read_text().startswith("// commands for lock_order.go, SHA-256 ")


def test_a_server_and_two_outputs(rewind: str, source: Callable[[str], Path]) -> None:
    """Nothing is bad: each schedule leaves the goroutine that serves, and nobody has said which output is right."""
    path = str(source(SERVED))
    done = run(rewind, "--runs", "40", path)
    assert done.returncode == 3 and "In short" not in done.stdout
    assert re.search(r"^All 40 schedules leave hold at line 6 \(select \{\): a server\?", done.stdout, re.MULTILINE)
    assert "2 different outputs came. Which is right? Say so: --expect " in done.stdout
    each = run(rewind, "--runs", "40", "--each", path)
    assert each.returncode == 3 and each.stdout.count("In short") == 2
    assert run(rewind, "--runs", "40", "--ignore", "output", path).returncode == 0


def test_the_rare_output_is_bad_where_the_user_says_so(rewind: str, source: Callable[[str], Path]) -> None:
    done = run(rewind, "--runs", "40", "--expect", "^2$", str(source(SERVED)))
    assert done.returncode == 1 and done.stdout.count("In short") == 1
    assert "output: not as --expect says" in done.stdout and "run 5000' ends well and prints: 2\n" in done.stdout


def test_a_leak_that_some_schedules_have(rewind: str, source: Callable[[str], Path]) -> None:
    """A step is told behind which it does not come."""
    path = str(source(TIMEOUT))
    done = run(rewind, "--runs", "60", "--ignore", "output", path)
    assert done.returncode == 1
    assert "leak: a goroutine never ends" in done.stdout and "in late at line 4 (out <- 1)" in done.stdout
    assert run(rewind, "--runs", "60", "--ignore", "output,leak", path).returncode == 0


def test_other_orders_of_the_same_lines_are_one_output(rewind: str, source: Callable[[str], Path]) -> None:
    done = run(rewind, "--runs", "60", str(source(IN_ANY_ORDER)))
    assert done.returncode == 0 and re.search(r" 60  ended +1 / 2 \(in 2 orders\)$|2 / 1 \(in 2 orders\)$", done.stdout, re.MULTILINE)


def test_a_source_of_standard_input(rewind: str) -> None:
    """It is read once, whatever the number of processes; a device that has it too."""
    text = (EXAMPLES / "double_close.go").read_text()
    environment = {**os.environ, "REWIND": rewind}
    for name in ("-", "/dev/stdin"):
        words = [*COMMAND, "--jobs", "2", "--runs", "20", name]
        done = subprocess.run(words, input=text, capture_output=True, text=True, env=environment, check=False, timeout=60)
        assert done.returncode == 1 and done.stderr == "" and "panic: close of closed channel" in done.stdout


def test_a_standard_input_that_is_closed(rewind: str) -> None:
    words = ["sh", "-c", '"$@" <&-', "sh", *COMMAND, "-"]
    done = subprocess.run(words, capture_output=True, text=True, env={**os.environ, "REWIND": rewind}, check=False)
    assert (done.returncode, done.stdout, done.stderr) == (2, "", "rewind-hunt: standard input is closed\n")


def test_several_files(rewind: str, source: Callable[[str], Path], tmp_path: Path) -> None:
    """The worst of their statuses counts."""
    good = str(source(GOOD))
    done = run(rewind, "--runs", "5", good, str(EXAMPLES / "double_close.go"))
    assert done.returncode == 1 and done.stdout.count("schedules of ") == 2
    lost = run(rewind, "--runs", "5", good, str(tmp_path / "none.go"), str(EXAMPLES / "double_close.go"))
    assert lost.returncode == 2 and lost.stdout.count("schedules of ") == 2
    assert lost.stderr == f"rewind-hunt: {tmp_path / 'none.go'} cannot be read: No such file or directory\n"
    assert run(rewind, "--runs", "5", good, good).returncode == 0


def test_the_version_is_that_of_the_program(rewind: str) -> None:
    version = subprocess.run([rewind, "--version"], capture_output=True, text=True, check=True).stdout.split(" ", 1)[1].strip()
    done = run(rewind, "--version")
    assert done.returncode == 0 and done.stdout.startswith(f"rewind-hunt {version}")


@pytest.mark.parametrize("console, others, pattern", [
    (("balance 30",), [("balance 20",)], "'balance 30'"),
    (("3",), [("30",)], "'^3$'"),
    (("a", "b"), [("a",), ("b",)], "'\\Aa\\nb\\Z'"),
    (("(x)",), [()], "'\\(x\\)'"),
])  # fmt: skip
def test_a_pattern_for_one_output(console: tuple[str, ...], others: list[tuple[str, ...]], pattern: str) -> None:
    assert expecting(console, others) == pattern


@pytest.mark.parametrize("closed, status, said", [
    ("<&-", 1, ""),
    (">&-", 2, "rewind-hunt: standard output is closed\n"),
    (">/dev/full", 2, "rewind-hunt: standard output cannot be written: No space left on device\n"),
])  # fmt: skip
def test_a_stream_that_is_closed_or_full(closed: str, status: int, said: str, rewind: str) -> None:
    words = [*COMMAND, "--jobs", "1", "--runs", "3", str(EXAMPLES / "double_close.go")]
    shell, environment = ["sh", "-c", f'"$@" {closed}', "sh"], {**os.environ, "REWIND": rewind}
    done = subprocess.run([*shell, *words], capture_output=True, text=True, env=environment)
    assert (done.returncode, done.stderr) == (status, said)


def test_a_ctrl_c_at_any_moment(rewind: str, tmp_path: Path) -> None:
    """It ends the hunt without a traceback."""
    words = [*COMMAND, "--jobs", "2", "--runs", "20000", str(EXAMPLES / "philosophers.go")]
    begun = Begun(tmp_path)
    for twentieths in range(10):
        begun.forget()
        environment, pipe = {**begun.environment, "REWIND": rewind}, subprocess.PIPE
        child = subprocess.Popen(words, stdout=pipe, stderr=pipe, text=True, env=environment, start_new_session=True)
        begun.wait()
        time.sleep(0.05 * twentieths)
        os.killpg(child.pid, signal.SIGINT)
        _, said = child.communicate(timeout=60)
        assert "rewind" not in said and "Error" not in said, (twentieths, said)


class Terminal(io.StringIO):
    def isatty(self) -> bool:
        return True


def test_a_bar_at_a_terminal_alone(rewind: str) -> None:
    found = Hunt(plan_of(rewind, EXAMPLES / "double_close.go", runs=2))
    for out, shown in ((Terminal(), True), (io.StringIO(), False)):
        bar = Progress(2, out)
        found.add(Outcome(0, End.FAULT, 3, fault="CloseOfClosed"))
        bar.told(found)
        bar.clear()
        assert (out.getvalue() != "") is shown
        assert not shown or ("] " in out.getvalue() and " bad" in out.getvalue())


def test_what_is_expected(rewind: str, source: Callable[[str], Path]) -> None:
    path = str(source(GOOD))
    assert run(rewind, "--runs", "5", "--expect", "^42$", path).returncode == 0
    done = run(rewind, "--runs", "5", "--expect", "43", path)
    assert done.returncode == 1 and "output: not as --expect says, 5 of 5 schedules" in done.stdout


def test_what_is_ignored(rewind: str) -> None:
    done = run(rewind, "--runs", "5", "--ignore", "panic", str(EXAMPLES / "double_close.go"))
    assert done.returncode == 0 and "5  panic: close of closed channel" in done.stdout and "In short" not in done.stdout


def test_a_hunt_that_stops(rewind: str) -> None:
    done = run(rewind, "--stop", str(EXAMPLES / "double_close.go"))
    assert done.returncode == 1 and done.stdout.startswith("1 schedule of ")


@pytest.mark.parametrize(
    "words, said",
    [
        ([], "name a FILE, or - for standard input; 'rewind-hunt --help' tells how it is used"),
        (["-", "-"], "- stands for standard input, which is read once: name it once"),
        (["--script", "x.script", "a.go", "b.go"], "--script keeps the commands for one FILE: name one"),
        (["--bad", "x.go"], "unrecognized arguments: --bad; 'rewind-hunt --help' tells how it is used"),
        (["/"], "/ is a folder: name the source in it"),
        (["--runs", "0", "x.go"], "argument --runs: 0 is no number from 1 to 1000000"),
        (["--expect", "(", "x.go"], "--expect has a pattern that means nothing: "),
        (["--ignore", "leaks", "x.go"], "--ignore has a kind that is none: leaks (there are panic, deadlock, unended, leak, output)"),
        (["--script", "/no/such/folder/x", "x.go"], "/no/such/folder/x cannot be written"),
        (["/no/such/file.go"], "/no/such/file.go cannot be read: No such file or directory"),
        (["--rewind", "/no/such/program", "x.go"], "there is no program /no/such/program, which --rewind names"),
    ],
)
def test_a_command_line_at_fault(words: list[str], said: str, rewind: str) -> None:
    done = run(rewind, *words)
    assert done.returncode == 2 and done.stdout == ""
    assert done.stderr.startswith("rewind-hunt: " + said) and done.stderr.count("\n") == 1


def test_a_source_that_is_refused(rewind: str, source: Callable[[str], Path]) -> None:
    path = str(source('package main\n\nimport "fmt"\n'))
    done = run(rewind, path)
    assert done.returncode == 2 and done.stdout == ""
    assert done.stderr.startswith(path + ":3:1: imports are not supported\n")


def test_the_last_step_is_the_end(rewind: str, reducers: Callable[[Hunt], Reducer]) -> None:
    script = script_of(reducers(hunted(plan_of(rewind, EXAMPLES / "leak.go"), Kind.LEAK)), Kind.LEAK)
    assert script.entries[-1].kind.word is KindWord.EXIT
