"""Explanations and direct causes, on the examples."""
from __future__ import annotations


from rewind_client.direct import DirectCauses, EdgeKind
from rewind_client.endings import Ending
from rewind_client.explanations import Explanation, Standing, explain
from rewind_client.replies import KindWord
from rewind_client.sentences import Sentences
from rewind_client.session import Session

from opened import Open


def explained(one: Session, steps: int = 1000) -> Explanation:
    one.run(steps)
    return explain(one)


def said(one: Session) -> list[str]:
    return Sentences(one).all(explain(one))


def test_lock_order(session: Open) -> None:
    found = explained(session("lock_order"))
    assert found.standing is Standing.DEADLOCK
    assert found.cycle == ("g0.1", "g0.2")
    assert [place.line for place in found.waits[1].places] == [4, 9]
    assert found.waits[1].wishes[0].taken.step == "g0.2#2"  # type: ignore[union-attr]


def test_philosophers(session: Open) -> None:
    found = explained(session("philosophers"))
    assert found.cycle == ("g0.1", "g0.2", "g0.3")
    assert [wait.waits_for for wait in found.waits] == [("g0.1", "g0.2", "g0.3"), ("g0.2",), ("g0.3",), ("g0.1",)]


def test_a_send_that_nobody_can_receive(session: Open) -> None:
    found = explained(session("unbuffered"))
    assert [(wish.value, wish.servers) for wish in found.waits[0].wishes] == [("42", ())]
    assert not found.cycle


def test_off_by_one(session: Open) -> None:
    found = explained(session("off_by_one"))
    assert found.waits[0].waits_for == ("g0.1",)
    assert found.waits[1].wishes[0].servers == ()


def test_faults(session: Open) -> None:
    found = explained(session("double_close")).fault
    assert found and found.closed_by and (found.name, found.step, found.closed_by.step) == ("CloseOfClosed", "g0#9", "g0.1#9")
    assert [place.line for place in found.places] == [5, 22]
    other = explained(session("send_on_closed")).fault
    assert other and other.closed_by and (other.step, other.closed_by.line) == ("g0.2#9", 8)


def test_a_division_by_zero(session: Open) -> None:
    one = session("package main\nfunc main() {\n\tx, y := 1, 0\n\tprintln(x / y)\n}\n")
    one.run(10)
    assert said(one)[0] == "panic: runtime error: integer divide by zero"
    assert said(one)[2].strip() == "there x is 1, y is 0"


def test_a_nil_channel(session: Open) -> None:
    one = session("package main\nfunc main() {\n\tvar c chan int\n\tc <- 1\n}\n")
    one.run(10)
    assert said(one)[1:] == ["g0 waits to send to a nil channel at line 4: c <- 1", "    a nil channel blocks for ever"]


def test_a_select_that_waits(session: Open) -> None:
    one = session(
        "package main\nfunc main() {\n\tc, d := make(chan int), make(chan int)\n\tselect {\n\tcase <-c:\n\tcase d <- 3:\n\t}\n}\n"
    )
    one.run(10)
    assert "receive from c (g0/c1) or send 3 to d (g0/c2)" in said(one)[1]


def test_what_is_left(session: Open) -> None:
    found = explained(session("leak"))
    assert found.standing is Standing.ENDED
    assert [wait.goroutine for wait in found.waits] == ["g0.2", "g0.3", "g0.5"]
    assert [(it.goroutine, it.ending) for it in found.fates] == [(name, Ending.WAIT) for name in ("g0.2", "g0.3", "g0.5")]


def test_a_starved_clause(session: Open) -> None:
    found = explained(session("starved_select")).starved
    assert [(it.clause, it.waiting, it.place.line) for it in found] == [(2, "g0.2", 20)]


def test_a_program_that_is_well(session: Open) -> None:
    one = session("lost_update")
    assert said(one) == ["The program can go on: g0 is ready."]
    one.run(1000)
    assert said(one) == ["The program has ended, and every goroutine is done."]


def test_direct_causes(session: Open) -> None:
    one = session("double_close")
    one.run(1000)
    finder = DirectCauses(one)
    edges: dict[str, list[str]] = {
        fact.step: [f"{edge.source.step} {edge.kind.name}" for edge in finder.of(fact)] for fact in one.noted()
    }
    assert edges["g0#9"] == ["g0.1#9 CLOSE"]
    assert edges["g0.1#1"] == ["g0#4 START"]
    assert edges["g0.1#2"] == ["g0#5 MESSAGE"]
    assert edges["g0#6"] == ["g0.1#2 WAIT"]
    assert edges["g0#1"] == []


def test_the_direct_cause_of_a_wait(session: Open) -> None:
    one = session("philosophers")
    one.run(1000)
    wait = one.facts.of("g0.1#3")
    assert wait
    found = DirectCauses(one).of(wait)
    assert [(edge.source.step, edge.kind) for edge in found] == [("g0.2#1", EdgeKind.ORDER)]
    assert len(one.core.causes("g0.1#3")) > 10


SELECT = "select {\n\tcase c <- 1:\n\t}"


def sends(first: str, second: str) -> str:
    """A program whose goroutine and whose `main` each use a channel."""
    put = f"func put(c chan int) {{\n\t{first}\n}}\n"
    return f"package main\n{put}func main() {{\n\tc := make(chan int, 2)\n\tgo put(c)\n\t{second}\n\tprintln(0)\n}}\n"


def kinds_into(one: Session, word: KindWord) -> list[EdgeKind]:
    """What the steps of `put` were to the first step of main of this kind."""
    for word_of_go, steps in (("g0", 3), ("g0.1", 2), ("g0", 1)):
        for _ in range(steps):
            one.step(word_of_go)
    fact = next(it for it in one.noted() if it.kind.word is word and it.owner == "g0")
    return [edge.kind for edge in DirectCauses(one).of(fact)]


def test_a_select_that_sends_takes_nothing_out(session: Open) -> None:
    assert kinds_into(session(sends("c <- 1", SELECT)), KindWord.PICK) == [EdgeKind.ORDER]


def test_what_a_select_sent_into_a_buffer_is_a_message(session: Open) -> None:
    assert kinds_into(session(sends(SELECT, "<-c")), KindWord.TAKE) == [EdgeKind.MESSAGE]
