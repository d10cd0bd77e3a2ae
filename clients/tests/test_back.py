"""Going back to lines and values: the places are those that one finds step by step."""
from __future__ import annotations

import random
from collections.abc import Callable, Generator
from typing import Optional, TypeVar

import pytest

from rewind_client import facts, motion, scout
from rewind_client.core import Core
from rewind_client.motion import StopReason
from rewind_client.names import step_owner
from rewind_client.prints import printing_lines
from rewind_client.replies import State
from rewind_client.scout import last_step_at, place_by_turns
from rewind_client.session import Session
from rewind_client.watched import ChannelWatch, Watch, Way
from rewind_client.watches import backward_to_value, forward_to_value

from opened import Open, random_command

PROGRAMS = ("leak", "lost_update", "worker_pool", "send_on_closed", "starved_select", "philosophers")
Found = TypeVar("Found")


def driven(movement: Generator[int, None, Found]) -> Found:
    """A movement to its end."""
    while True:
        try:
            next(movement)
        except StopIteration as over:
            found: Found = over.value
            return found


def place_by_undo(one: Session, lines: set[int]) -> int:
    """The place of the last step at one of some lines, by undo and show alone; the steps stay undone."""
    while one.log():
        owner = step_owner(one.undo())
        shown = one.goroutine(owner)
        if shown and shown.line in lines:
            return len(one.log())
    return -1


@pytest.mark.parametrize("seed", range(12))
def test_the_last_step_at_a_line(session: Open, seed: int, monkeypatch: pytest.MonkeyPatch) -> None:
    monkeypatch.setattr(facts, "FIRST_PORTION", 2)
    monkeypatch.setattr(facts, "KEPT", 8 if seed % 2 else 10**6)
    monkeypatch.setattr(facts, "PORTION", 5)
    chance = random.Random(seed)
    one = session(PROGRAMS[seed % len(PROGRAMS)])
    for _ in range(60):
        random_command(one, chance)
    if not one.log():
        one.run(5)
    lines = set(chance.sample(one.program.statements, 2))
    found = [driven(last_step_at(one, lines)) for _ in range(2)]
    by_turns = place_by_turns(one, lines)
    wanted = place_by_undo(one, lines)
    assert found == [wanted] * 2 and by_turns in (None, wanted)


def test_a_log_by_turns_is_gone_through_by_runs(session: Open, monkeypatch: pytest.MonkeyPatch) -> None:
    monkeypatch.setattr(scout, "FAR", 100)
    monkeypatch.setattr(facts.Facts, "backward", None)
    one = session("starved_select")
    one.run(500)
    line = one.program.functions["main"].line + 1
    found = driven(last_step_at(one, {line}))
    assert found == place_by_undo(one, {line}) and found < 20


@pytest.mark.parametrize("name", PROGRAMS)
def test_the_others_run_until_a_goroutine_can_go_on(session: Open, core: Callable[[str], Core], name: str) -> None:
    """They stop where one turn after the other would let it go on, or where it takes its next step."""
    one, chance = session(name), random.Random(name)
    for _ in range(40):
        random_command(one, chance)
    waiting = [it for it in one.goroutines() if it.state is State.WAITING]
    for goroutine in waiting if not one.stopped_by() else []:
        before = one.length()
        stop = driven(motion.others(one, goroutine, set))
        shown = one.goroutine(goroutine.name)
        assert shown and shown.steps == goroutine.steps
        if stop is None:
            assert shown.state is State.READY
        else:
            assert shown.state is State.WAITING or stop.reason in (StopReason.ENDED, StopReason.FAULT)
        one.cut(before)


VALUES = """package main
func count(c chan int, n int) {
	sum := 0
	for i := 0; i < n; i++ {
		sum += i
		c <- sum
	}
	close(c)
}
func main() {
	c := make(chan int)
	go count(c, 4)
	last := 0
	for v := range c {
		last = v
	}
	println(last)
}
"""


def value(one: Session, watch: Watch) -> str:
    shown = one.goroutine(watch.goroutine)
    return shown.frames[0].value_of(watch.variable) if shown and shown.frames else ""


def test_values_that_are_given_forward_and_back(session: Open) -> None:
    one, watch = session(VALUES), Watch("g0.1", "sum")
    seen: list[str] = []
    stop: Optional[motion.Stop] = None
    while stop is None or stop.reason is StopReason.VALUE:
        stop = driven(forward_to_value(one, set, lambda: [watch], "g0"))
        seen.append(value(one, watch))
    assert seen[:5] == ["0", "0", "1", "3", "6"] and stop.reason is StopReason.ENDED
    back = []
    while driven(backward_to_value(one, set, lambda: [watch])).reason is StopReason.VALUE_TAKEN_BACK:
        back.append(value(one, watch))
    assert back == ["3", "1", "0", "0", ""]
    assert one.log() == []


def test_two_watched_variables_stop_in_the_order_of_the_steps(session: Open) -> None:
    one, watches = session(VALUES), [Watch("g0", "last"), Watch("g0.1", "sum")]
    stops = [driven(forward_to_value(one, set, lambda: watches, "g0")) for _ in range(6)]
    names = [(stop.goroutine, stop.before) for stop in stops]
    assert set(names) == {("g0", "last"), ("g0.1", "sum")}
    order = [entry.step for entry in one.log()]
    steps = [order.index(stop.entry.step) for stop in stops if stop.entry]
    assert steps == sorted(steps) and len(steps) == 6


def test_a_channel_is_watched_forward_and_back(session: Open) -> None:
    """Each send is stopped at once, and each of them again on the way back; so are the receives."""
    for way in Way:
        one, watch = session(VALUES), ChannelWatch("g0/c1", way)
        steps: list[str] = []
        stop = driven(forward_to_value(one, set, lambda: [watch], "g0"))
        while stop.reason is StopReason.VALUE:
            assert stop.entry and one.log()[-1] == stop.entry and stop.watch == watch
            steps.append(stop.entry.step)
            stop = driven(forward_to_value(one, set, lambda: [watch], "g0"))
        assert len(steps) == len(set(steps)) >= 4
        back: list[str] = []
        stop = driven(backward_to_value(one, set, lambda: [watch]))
        while stop.reason is StopReason.VALUE_TAKEN_BACK:
            assert stop.entry and stop.entry not in one.log()
            back.append(stop.entry.step)
            stop = driven(backward_to_value(one, set, lambda: [watch]))
        assert back == steps[::-1]


def test_a_loop_on_one_line_is_no_statement_that_goes_back_whole(session: Open) -> None:
    one = session("package main\nfunc main() {\n\tx := 0\n\tfor {\n\t\tx++\n\t}\n}\n")
    one.run(50)
    shown = one.goroutine("g0")
    assert shown and motion.line_before(one, shown) == "g0#50"


def test_where_lines_were_printed(session: Open) -> None:
    one = session("worker_pool")
    one.run(1000)
    lines = printing_lines(one)
    assert [one.program.line(line) for line in lines] == ['println("sum of squares", sum)']
    assert len(lines) == len(one.core.console())


def test_a_cut_leaves_the_first_steps(session: Open) -> None:
    one = session("leak")
    one.run(50)
    log = list(one.log())
    one.cut(20)
    assert one.log() == log[:20] == one.core.log()
    one.cut(30)
    assert len(one.log()) == 20
