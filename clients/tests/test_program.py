"""What a source tells of its statements, and values of plain expressions."""
from __future__ import annotations

import pytest

from rewind_client.facts import Verb
from rewind_client.expressions import fault_of_condition
from rewind_client.program import Program
from rewind_client.refusals import explain_refusal
from rewind_client.values import told_of

SOURCE = b"""package main

func put(m chan<- int, n int) { m <- n * 2 }

func pass(first chan int, second chan int) int {
	put(first, 1)
	x := <-first + <-second
	select {
	case v, ok := <-first:
		println(v, ok)
	case second <- x:
	default:
	}
	for v := range second {
		x += v
	}
	return len(first) + x
}

func main() {
	a, b := make(chan int, 1), make(chan (<-chan int))
	go pass(a, a)
	close(a)
	if x := 1; x < 2 {
		b <- (a)
	}
}
"""


@pytest.fixture
def program() -> Program:
    return Program(SOURCE)


def test_statements(program: Program) -> None:
    assert program.statements == [3, 6, 7, 8, 10, 14, 15, 17, 18, 21, 22, 23, 24, 25, 27]
    assert program.statement_at(11) == 14
    assert program.statement_at(28) is None
    assert program.statements_between(6, 8) == [6, 7, 8]
    assert program.function_at(7) == "pass"
    assert program.heading("main") == 20
    assert program.line(7) == "x := <-first + <-second"


def test_functions(program: Program) -> None:
    passing = program.functions["pass"]
    assert passing.parameters == ["first", "second"]
    lines = [[it.line for it in passing.parts if first <= it.begin < last] for first, last in passing.loops]
    assert lines == [[14, 15]]
    assert program.functions["put"].parameters == ["m", "n"]
    assert program.calling_lines("pass", "put") == [6]
    assert program.calling_lines("main", "pass") == []


def test_uses_of_channels(program: Program) -> None:
    found = [(it.verb, it.variable, it.line, it.case) for it in program.functions["pass"].flows.uses]
    assert found == [
        (Verb.RECEIVE, "first", 7, 0),
        (Verb.RECEIVE, "second", 7, 0),
        (Verb.RECEIVE, "first", 8, 1),
        (Verb.SEND, "second", 8, 2),
        (Verb.RECEIVE, "second", 14, 0),
    ]
    assert program.uses("main", 21) == [] and [it.case for it in program.uses("pass", 8)] == [1, 2]


@pytest.mark.parametrize(
    "text, value",
    [
        ("1 + 2 * 3", "7"),
        ("( 1 + 2 ) * x", "15"),
        ("- 7 / 2", "-3"),
        ("- 7 % 2", "-1"),
        ("1 << 63", "-9223372036854775808"),
        ("9223372036854775807 + 1", "-9223372036854775808"),
        ("x &^ 4 | 0x10", "17"),
        ("017 + 0b11", "18"),
        ("^ x", "-6"),
        ("x > 3 && ! ok", "false"),
        ("ok == true", "true"),
        ("struct { } { }", "{}"),
        ("c", "g0/c1"),
        ("nil", "nil"),
        ("f ( x )", ""),
        ("<- c", ""),
        ("x / 0", ""),
        ("y", ""),
        ("x +", ""),
        ("", ""),
        ("x && 1", ""),
        ("ok + 1", ""),
        ("c == nil", "false"),
        ("c + c", ""),
        ("x == 5 || x / 0 == 1", "true"),
        ("x == 4 && x / 0 == 1", "false"),
        ("x == 5 && x / 0 == 1", ""),
        ("( " * 5000 + "x", ""),
    ],
)
def test_values(text: str, value: str) -> None:
    variables = {"x": "5", "ok": "true", "c": "g0/c1"}
    assert told_of(text.split(), lambda name: variables.get(name, "")).value == value


@pytest.mark.parametrize("condition, why", [
    ("n > 2 && ok", ""),
    ("m", ""),
    ("len(c) == cap(c)", ""),
    ("c == nil || n / 0 == 1", ""),
    ("n", "it is a number, and no truth value"),
    ("n / 2", "it is a number, and no truth value"),
    ("c", "it is a channel or a token, and no truth value"),
    ("n && 1", "'&&' wants truth values"),
    ("n = 5", "'=' is not expected there, '==' compares"),
    ("n >", "something is missing at its end"),
    ("(n > 1", "something is missing at its end"),
    ("n == ok", "'==' wants two of one type"),
    ("k > 1", "there is no variable 'k' here"),
    ("len(n) > 1", "'len' wants a channel"),
    ("done()", "there is no variable 'done' here"),
    ("n)", "')' is not expected there"),
    ("", "something is missing at its end"),
    ("n > 1 \x00", "'\x00' is not expected there"),
])  # fmt: skip
def test_conditions(condition: str, why: str) -> None:
    source = b"package main\nfunc f(a, n int, c chan int) {\n\tvar ok bool\n\tm := <-c > 1\n\tprintln(m, ok)\n}\nfunc main() {}\n"
    assert fault_of_condition(condition, Program(source), "f") == why


def test_a_long_source() -> None:
    program = Program(b"package main\nfunc main() {\n" + b"\tx := 1\n" * 100_000 + b"}\n")
    assert len(program.statements) == 100_001


def test_text_that_is_no_source() -> None:
    for text in (b"", b"func", b"func f(", b"package main\nfunc main() { select { case", b"\xff\xfe{{{((("):
        Program(text)


def test_a_refusal_in_words() -> None:
    told = explain_refusal('package main\nimport "fmt"\n', "P2", 2, 1)
    assert told.word == "import"
    assert told.sentence
