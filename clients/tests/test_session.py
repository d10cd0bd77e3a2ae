"""Sessions: what they keep is what Rewind tells, and the facts of steps."""
from __future__ import annotations

import random
from pathlib import Path

import pytest

from rewind_client.core import Refused, step_command
from rewind_client.errors import Cancelled, RewindError
from rewind_client.facts import Facts, Place, Verb
from rewind_client.finding import Settings
from rewind_client.motion import next_in_turn
from rewind_client.opening import open_session
from rewind_client.process import never
from rewind_client.replies import KindWord

from opened import Open, random_command
from support.places import EXAMPLES

TWO_CALLS = """package main
func get(c chan int) int {
	return <-c
}
func main() {
	a, b := make(chan int, 2), make(chan int, 1)
	a <- 1
	a <- 3
	b <- 2
	println(get(a))
	println(get(b) + <-a)
}
"""


def test_names(session: Open) -> None:
    one = session("leak")
    one.run(1000)
    assert one.goroutine_names() == ["g0", "g0.1", "g0.2", "g0.3", "g0.4", "g0.5", "g0.6"]
    assert one.channel_names() == [f"g0/c{number}" for number in range(1, 7)]
    assert one.name_of("g0/c2") == "late (g0/c2)"


def test_lines_of_callers_by_the_steps(session: Open) -> None:
    one = session(TWO_CALLS)
    for line in (10, 11):
        while True:
            goroutine = one.goroutine("g0")
            assert goroutine
            if len(goroutine.frames) == 2:
                break
            one.step("g0")
        assert one.places(goroutine) == [Place("get", 3), Place("main", line)]
        while one.step("g0").kind.word is not KindWord.RETURN:
            pass
    calls = [fact.place for fact in one.noted() if fact.kind.word is KindWord.CALL]
    assert calls == [Place("main", 10), Place("main", 11)]


def test_channels_and_values(session: Open) -> None:
    one = session("worker_pool")
    one.run(1000)
    hands = [fact for fact in one.noted() if fact.kind.word is KindWord.HAND and fact.place.function == "worker"]
    one.values.learn(hands)
    assert [one.values.of(fact) for fact in hands] == ["1", "4", "9", "16", "25"]
    assert {one.name_of(fact.channel) for fact in hands} == {"results (g0/c2)"}
    assert all(fact.verb is Verb.SEND and len(fact.woke) == 1 for fact in hands)


def test_the_channel_is_told_where_two_stand_on_a_line(session: Open) -> None:
    one = session(
        "package main\nfunc main() {\n\ta, b := make(chan int, 1), make(chan int, 1)\n\ta <- 1\n\tb <- 2\n"
        "\tprintln(<-a, <-b)\n}\n"
    )
    one.run(100)
    assert [(it.channel, one.values.of(it)) for it in one.noted() if it.receives()] == [("g0/c1", "1"), ("g0/c2", "2")]


SHADOWED = """package main
func f(c chan int) {
	x := 1
	if true {
		x := 2
		c <- x
	}
	c <- x + 100
	c <- g(7)
}
func g(n int) int {
	return n * n
}
func main() {
	c := make(chan int)
	go f(c)
	println(<-c, <-c, <-c)
}
"""


def test_values_that_the_text_does_not_tell(session: Open) -> None:
    """Two variables have one name, and a value is that of a call; whoever comes first, the values are told."""
    orders: list[list[str]] = [["g0"], ["g0.1", "g0"], []]
    for order in orders:
        one = session(SHADOWED)
        while one.stopped_by() is None:
            ready = [it.name for it in one.ready()]
            one.step(next((name for name in order if name in ready), ready[-1]))
        moved = [it for it in one.noted() if it.woke and (it.sends() or it.receives())]
        assert [one.values.of(it) for it in moved] == ["2", "101", "49"]


def test_a_fault_in_a_clause_of_a_select(session: Open) -> None:
    one = session(
        "package main\nfunc main() {\n\tc, d := make(chan int), make(chan int, 1)\n\tclose(c)\n"
        "\tselect {\n\tcase d <- 1:\n\tcase c <- 2:\n\t}\n}\n"
    )
    while str(one.log()[-1].kind if one.log() else "") != "close":
        one.step("g0")
    while one.stopped_by() is None:
        try:
            one.step("g0", 2)
        except Refused:
            one.step("g0")
    assert one.noted()[-1].kind.fault == "SendOnClosed"
    assert one.noted()[-1].channel == "g0/c1"


def test_a_preview_changes_nothing(session: Open) -> None:
    one = session("philosophers")
    one.run(1000)
    before = list(one.log())
    gone = one.preview("g0.1#1")
    assert gone[0] == "g0.1#1"
    assert one.core.log() == before
    assert one.back("g0.1#1") == gone
    with pytest.raises(Refused):
        one.preview("g0#99")


@pytest.mark.parametrize("seed", range(6))
def test_what_is_kept_is_what_rewind_tells(session: Open, seed: int) -> None:
    """Random commands; after each the kept log, goroutines and channels are those that Rewind tells afresh."""
    chance = random.Random(seed)
    one = session(["worker_pool", "starved_select", "leak", "philosophers", "double_close", "lost_update"][seed])
    for _ in range(120):
        random_command(one, chance)
        if chance.random() < 0.3:
            one.facts.tail(chance.randint(1, 20))
        log = one.core.log()
        assert len(log) == one.length() and (not log or one.entry(-1) == log[-1])
        assert one.log() == log
        assert [one.core.show(it.name) for it in one.goroutines()] == one.goroutines()
        assert [one.core.channel(it.name) for it in one.channels()] == one.channels()
        afresh = one.core.ask_all([f"about {at}" for at in (f"1 {max(1, len(log))}",)])[0].parts["about"]
        assert [(it.step, it.line) for it in one.noted()] == [(row["id"], row["at"]["line"]) for row in afresh]


def test_a_long_log_is_noted_at_its_end(session: Open, monkeypatch: pytest.MonkeyPatch) -> None:
    monkeypatch.setattr("rewind_client.session.NOTED", 100)
    one = session("starved_select")
    one.run(1000)
    assert [fact.step for fact in one.noted()] == [entry.step for entry in one.log()[-100:]]
    one.back(one.log()[-150].step)
    assert len(one.noted()) == min(100, len(one.log()))
    assert step_command(one.log()[0]) == "step g0"


def test_a_run_that_was_not_waited_for(session: Open, monkeypatch: pytest.MonkeyPatch) -> None:
    """What is known is asked anew, and is that of the run, which Rewind did none the less."""
    monkeypatch.setattr("rewind_client.process.TICK_MS", 1)
    one = session("starved_select")
    one.run(5)
    one.core.process.cancelled = lambda: True
    with pytest.raises(Cancelled):
        one.run(300_000)
    one.core.process.cancelled = never
    assert len(one.log()) == one.core.kept == 300_005
    assert one.stopped_by() is None
    one.core.process.cancelled = lambda: True
    with pytest.raises(Cancelled):
        one.back("g0#1")
    one.core.process.cancelled = never
    assert one.log() == [] and one.core.kept == 0
    assert [it.name for it in one.goroutines()] == ["g0"]


def test_a_long_log_costs_nothing_at_each_step(session: Open, monkeypatch: pytest.MonkeyPatch) -> None:
    """Behind 100,000 steps of a run a step asks for few rows, and for the log not at all."""
    one = session("starved_select")
    one.run(100_000)
    monkeypatch.setattr("rewind_client.session.NOTED", 100)
    monkeypatch.setattr(one.core, "log", None)
    names, asked = one.goroutine_names(), list[str]()
    read = Facts.read

    def counted(self: Facts, queries: list[str]) -> object:
        asked.extend(queries)
        return read(self, queries)

    monkeypatch.setattr(Facts, "read", counted)
    one.noted()
    for _ in range(50):
        one.step(next_in_turn(one))
        assert one.goroutine_names() == names
        assert len(one.noted()) == 100
    assert len(asked) <= 101 and one.length() == 100_050


def test_names_are_those_of_the_log(session: Open) -> None:
    """There are as many goroutines and channels as steps that start and make one."""
    one, chance = session("leak"), random.Random(4)
    for _ in range(200):
        random_command(one, chance)
        words = [it.kind.word for it in one.log()]
        assert len(one.goroutine_names()) == 1 + words.count(KindWord.GO)
        assert len(one.channel_names()) == words.count(KindWord.MAKE)
        assert one.roster.is_whole()


def test_more_goroutines_than_are_told(session: Open, monkeypatch: pytest.MonkeyPatch) -> None:
    monkeypatch.setattr("rewind_client.roster.MAX_GOROUTINES", 3)
    one = session("leak")
    one.run(1000)
    assert one.goroutine_names() == ["g0", "g0.1", "g0.2"] and not one.roster.is_whole()


@pytest.mark.parametrize("seed", range(4))
def test_facts_are_those_that_are_told_afresh(session: Open, seed: int, monkeypatch: pytest.MonkeyPatch) -> None:
    """After random commands; and the values are those of a session that goes back from the end of the log."""
    chance, one = random.Random(seed), session(["worker_pool", "starved_select", "philosophers", "lost_update"][seed])
    for _ in range(60):
        random_command(one, chance)
        one.values.learn(one.facts.tail(chance.randint(1, 9)))
    kept = {fact.step: (fact, one.values.of(fact)) for fact in one.noted()}
    for few, many in ((0, 0), (10**9, 10**9)):
        monkeypatch.setattr("rewind_client.moved.FEW", few)
        monkeypatch.setattr("rewind_client.moved.MANY", many)
        one.forget()
        one.values.learn(one.noted())
        assert {fact.step: (fact, one.values.of(fact)) for fact in one.noted()} == kept


def test_beside_workers_a_second_session_is_asked(rewind: str, session: Open) -> None:
    path = str(EXAMPLES / "lost_update.go")
    one, other = open_session(rewind, path, Settings(workers=2)), session("lost_update")
    for command in ("run 30", "back g0.1#2", "run 20"):
        one.ask(command)
        one.refresh()
        other.ask(command)
    assert one.core.has_workers and one.log() == other.log()
    assert one.noted() == other.noted()
    assert [one.values.of(it) for it in one.noted()] == [other.values.of(it) for it in other.noted()]
    assert one.preview("var g0 x") == other.preview("var g0 x") if "x" in one.program.functions["main"].names else True
    one.end()


def test_a_copy_that_cannot_be_written_is_told(rewind: str, monkeypatch: pytest.MonkeyPatch) -> None:
    one = open_session(rewind, str(EXAMPLES / "lost_update.go"))
    one.run(10)
    monkeypatch.setattr("tempfile.tempdir", "/nowhere")
    with pytest.raises(RewindError, match="lost_update.go cannot be written: No such file"):
        one.preview("go g0.1")
    monkeypatch.setattr("tempfile.tempdir", None)
    assert one.preview("go g0.1")
    one.end()


def test_a_second_session_reads_the_text_of_the_first(rewind: str, tmp_path: Path) -> None:
    path = tmp_path / "changed.go"
    path.write_text("package main\nfunc main() {\n\tprintln(1)\n}\n")
    one = open_session(rewind, str(path))
    assert one.source and not one.source.has_changed()
    path.write_text("package main\n\n\nfunc main() {\n\tprintln(2)\n}\n")
    one.run(10)
    with one.copied() as core:
        assert core.console() == ["1"]
    assert [fact.line for fact in one.noted()] == [3, 4] and one.source.has_changed()
    path.unlink()
    assert one.source.has_changed()
    one.end()


def test_a_query_is_no_command_of_users(session: Open) -> None:
    one = session("lost_update")
    assert [one.ask(line).text for line in ("about 1 2", "at 0 show g0", "at")] == ["? bad command\n"] * 3
