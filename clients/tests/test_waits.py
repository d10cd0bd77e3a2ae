"""Who waits for whom, on programs in which a lock is taken by sending, channels go over channels, and goroutines end early."""
from __future__ import annotations


import pytest

from rewind_client.endings import Ending
from rewind_client.explanations import explain
from rewind_client.replies import State
from rewind_client.sentences import Sentences
from rewind_client.session import Session
from rewind_client.stories import Stories
from rewind_hunt.outcomes import Judge
from rewind_hunt.schedules import Scheduler

from opened import Open

HEAD = "package main\n"


def why(one: Session, *steps: str) -> list[str]:
    """What is said where the program stands, behind some commands and a run."""
    for command in (*steps, "run 1000"):
        one.ask(command)
    return Sentences(one).all(explain(one))


def edges(one: Session) -> dict[str, "tuple[str, ...]"]:
    return {wait.goroutine: wait.waits_for for wait in explain(one).waits}


KEPT = HEAD + """func use(id int, lock chan struct{}, done chan bool) {
	lock <- struct{}{}
	if id == 1 {
		done <- true
		return
	}
	<-lock
	done <- true
}
func main() {
	lock, done := make(chan struct{}, 1), make(chan bool, 3)
	go use(1, lock, done)
	go use(2, lock, done)
	go use(3, lock, done)
	<-done
	<-done
	<-done
}
"""


def test_a_lock_by_sending_that_is_never_given_back(session: Open) -> None:
    one = session(KEPT)
    told = why(one)
    culprit = "    g0.1, which is done, put {} into lock at line 3: lock <- struct{}{} ('back g0.1#1' takes that back)"
    assert told.count(culprit) == 2
    assert "    only g0.3 would receive from lock, after a send of its own that waits too" in told
    assert not any("cycle" in line for line in told)
    assert edges(one) == {"g0": ("g0.2", "g0.3"), "g0.2": (), "g0.3": ()}


BOTH = HEAD + """func both(first, second chan int, id int, done chan bool) {
	first <- id
	second <- id
	<-second
	<-first
	done <- true
}
func main() {
	a, b, done := make(chan int, 1), make(chan int, 1), make(chan bool)
	go both(a, b, 1, done)
	go both(b, a, 2, done)
	<-done
	<-done
}
"""


def test_two_locks_by_sending_in_two_orders(session: Open) -> None:
    told = why(session(BOTH), *["step g0"] * 6, "step g0.1", "step g0.2")
    held = "    g0.2, which may still receive from it, put 2 into second at line 3: first <- id ('back g0.2#1' takes that back)"
    assert held in told
    assert told[-1] == "A cycle: g0.1 waits for g0.2, g0.2 waits for g0.1."


def test_a_semaphore_of_two(session: Open) -> None:
    one = session(
        HEAD
        + """func use(seats chan struct{}, done chan bool) {
	seats <- struct{}{}
	seats <- struct{}{}
	<-seats
	<-seats
	done <- true
}
func main() {
	seats, done := make(chan struct{}, 2), make(chan bool)
	go use(seats, done)
	go use(seats, done)
	<-done
	<-done
}
"""
    )
    told = why(one, *["step g0"] * 5, "step g0.1", "step g0.2")
    assert edges(one) == {"g0": ("g0.1", "g0.2"), "g0.1": ("g0.2",), "g0.2": ("g0.1",)}
    assert sum("g0.1 itself put {} into seats" in line for line in told) == 1
    assert told[-1] == "A cycle: g0.1 waits for g0.2, g0.2 waits for g0.1."


def test_who_gave_a_lock_back_is_not_blamed(session: Open) -> None:
    one = session(
        HEAD
        + """func work(lock chan int, id int, done chan bool) {
	lock <- id
	if id == 2 {
		done <- true
		return
	}
	<-lock
	done <- true
}
func main() {
	lock, done := make(chan int, 1), make(chan bool)
	for i := 1; i <= 3; i++ {
		go work(lock, i, done)
	}
	<-done
	<-done
	<-done
}
"""
    )
    told = why(one)
    assert [line for line in told if "g0.1" in line] == []
    assert "    g0.2, which is done, put 2 into lock at line 3: lock <- id ('back g0.2#1' takes that back)" in told


RING = HEAD + """func node(left, right chan int) {
	v := <-left
	right <- v + 1
}
func main() {
	a, b, c := make(chan int), make(chan int), make(chan int)
	go node(a, b)
	go node(b, c)
	go node(c, a)
	println(<-a)
}
"""


def test_a_mere_holder_of_a_channel_is_in_no_cycle(session: Open) -> None:
    one = session(RING)
    told = why(one)
    assert edges(one)["g0.1"] == ("g0.3",) and edges(one)["g0"] == ("g0.3",)
    assert told[-1].startswith("A cycle: g0.1 waits for g0.3, g0.3 waits for g0.2, g0.2 waits for g0.1")


def test_what_a_goroutine_calls_a_channel(session: Open) -> None:
    told = why(session(RING))
    assert "g0.2 waits to receive from left (g0/c2) at line 3: v := <-left" in told


def test_what_is_done_already_is_no_longer_served(session: Open) -> None:
    """Of the parts of one statement, those before the one that waits are done."""
    one = session(
        HEAD
        + "func give(c chan int) {\n\tc <- 1\n\tc <- 2\n}\nfunc main() {\n\ta, b := make(chan int), make(chan int)\n\tgo give(a)\n"
        + "\tprintln(<-a, <-b)\n}\n"
    )
    assert "    no other goroutine can still receive from c" in why(one)


def test_a_channel_that_comes_over_another_one(session: Open) -> None:
    """A goroutine that may be given the channel may serve; the one that sends it away does not any more."""
    one = session(
        HEAD
        + """func late(boxes chan chan int, gate chan bool) {
	<-gate
	box := <-boxes
	box <- 1
}
func main() {
	boxes, gate, c := make(chan chan int, 1), make(chan bool), make(chan int)
	go late(boxes, gate)
	boxes <- c
	<-c
}
"""
    )
    told = why(one)
    assert edges(one)["g0"] == ("g0.1",)
    assert "    no other goroutine can still send to gate or close it" in told


def test_a_channel_that_nobody_takes_out(session: Open) -> None:
    one = session(HEAD + "func main() {\n\tc, d := make(chan chan int, 1), make(chan int)\n\tc <- d\n\t<-d\n}\n")
    assert why(one)[2] == "    no other goroutine can still send to d or close it"


def test_goroutines_that_one_would_start(session: Open) -> None:
    one = session(
        HEAD
        + """func give(c chan int) { c <- 1 }
func starter(gate chan bool, c chan int) {
	<-gate
	go give(c)
}
func main() {
	gate, c := make(chan bool), make(chan int)
	go starter(gate, c)
	<-c
}
"""
    )
    why(one)
    assert edges(one)["g0"] == ("g0.1",)


def test_a_range_over_a_channel_that_nobody_closes(session: Open) -> None:
    one = session(
        HEAD
        + "func give(c chan int) {\n\tc <- 1\n}\nfunc main() {\n\tc := make(chan int)\n\tgo give(c)\n\tfor v := range c {\n\t\tprintln(v)\n\t}\n}\n"
    )
    assert "    nobody will send to c again, and nobody closes it: the range cannot end" in why(one)


@pytest.mark.parametrize(
    "statement, told",
    [
        ("select {}", ["g0 waits for ever at line 3: select {}", "    its select has no cases"]),
        ("var c chan int; <-c", ["g0 waits to receive from a nil channel at line 3: var c chan int; <-c", "    a nil channel blocks for ever"]),
    ],
)
def test_what_waits_for_ever(session: Open, statement: str, told: list[str]) -> None:
    assert why(session(HEAD + f"func main() {{\n\t{statement}\n}}\n"))[1:] == told


PIPELINE = HEAD + """func count(out chan int) {
	for i := 0; i < 3; i++ {
		out <- i
	}
}
func quick(n int) {
	println(n)
}
func main() {
	c := make(chan int)
	go count(c)
	println(<-c)
	go quick(7)
}
"""


def test_only_what_would_wait_for_ever_is_a_leak(session: Open) -> None:
    told = why(session(PIPELINE))
    assert told[0] == "The program has ended. 2 goroutines were not done when main returned, and 1 is a leak."
    assert told[1] == "g0.1 would wait for ever to send 1 to out (g0/c1) at line 4: out <- i"
    assert told[-1] == "g0.2 would end"


def test_what_would_go_on_or_stop_the_program(session: Open) -> None:
    told = why(session(HEAD + "func spin() {\n\tfor {\n\t}\n}\nfunc main() {\n\tgo spin()\n}\n"))
    assert told[1].startswith("g0.1 would still go on after 2,000 steps, at line 3")
    told = why(session(HEAD + "func fail(n int) {\n\tprintln(1 / n)\n}\nfunc main() {\n\tgo fail(0)\n}\n"), "step g0", "step g0")
    assert told[1] == "g0.1 would stop the program at line 3: println(1 / n) (panic: runtime error: integer divide by zero)"


def test_a_cycle_that_may_come_loose_is_none(session: Open) -> None:
    """Two wait for each other, or for a third one that can still go on."""
    one = session(
        HEAD
        + """func peer(in, out chan int) {
	out <- <-in
}
func other(c chan int) {
	n := 0
	for i := 0; i < 100; i++ {
		n += i
	}
	c <- n
}
func main() {
	a, b := make(chan int), make(chan int)
	go peer(a, b)
	go peer(b, a)
	go other(a)
	println(<-b)
}
"""
    )
    one.ask("run 30")
    assert explain(one).cycle == ()


def test_a_lock_that_another_one_may_give_back_closes_no_cycle(session: Open) -> None:
    """Its holder waits in a circle, and `main`, which can go on, may fill the buffer too."""
    one = session(
        HEAD
        + """func use(lock, other chan int) {
	println(<-lock, <-other)
	lock <- 3
	other <- 3
}
func main() {
	lock, other := make(chan int, 1), make(chan int, 1)
	lock <- 7
	go use(lock, other)
	go use(lock, other)
	n := 0
	for i := 0; i < 100; i++ {
		n += i
	}
	lock <- n
}
"""
    )
    one.ask("run 40")
    assert edges(one) == {"g0.1": ("g0.2",), "g0.2": ("g0.1",)}
    assert explain(one).cycle == ()


def test_what_history_says_of_a_send_to_a_nil_channel(session: Open) -> None:
    one = session(HEAD + "func main() {\n\tvar c chan int\n\tc <- 1\n}\n")
    one.run(10)
    assert Stories(one).step(one.noted()[-1]) == "waits to send to a channel"


def test_of_two_sends_on_a_line_each_has_its_own_value(session: Open) -> None:
    """The log tells the line alone, so the text does not tell which of them a step was."""
    one = session(HEAD + "func f(c chan int, n int) { c <- 3; c <- n }\nfunc main() {\n\tc := make(chan int)\n\tgo f(c, 1)\n\t<-c\n\t<-c\n}\n")
    for name in ["g0"] * 4 + ["g0.1", "g0", "g0.1"]:
        one.ask("step " + name)
    assert [one.values.of(fact) for fact in one.noted() if fact.sends()] == ["3", "1"]


NOBODY_ENDS_IT = "package main\nfunc f() {\n\tselect {}\n}\nfunc main() {\n\tgo f()\n}\n"


@pytest.mark.parametrize("name", ["leak", "lost_update", "worker_pool", PIPELINE, KEPT, NOBODY_ENDS_IT])
def test_hunt_and_shell_agree_on_what_is_a_leak(session: Open, name: str) -> None:
    """Of the first schedule, which is round robin."""
    one = session(name)
    one.run(5000)
    scheduler = Scheduler(one.begin, one.program, 1, 5000)
    try:
        outcome = Judge(scheduler).outcome(0, scheduler.take(0))
    finally:
        scheduler.end()
    leaks = [it for it in explain(one).fates if it.ending in (Ending.WAIT, Ending.GO_ON)]
    assert bool(outcome.left) == bool(leaks)
    blocked = [spot.line for spot in outcome.left.elements() if spot.state is State.WAITING]
    assert sorted(blocked) == sorted(it.place.line for it in leaks if it.ending is Ending.WAIT)
