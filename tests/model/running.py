"""What a goroutine does: a generator that yields what its next step asks for, and is sent what came of it."""
from __future__ import annotations

from collections.abc import Callable, Generator
from dataclasses import dataclass, field
from functools import partial
from typing import Any, Optional

from .state import Goroutine
from .trees import Expr, Function, Stmt
from .values import BINARY, UNARY, Fault, Value, plain, text_of

UNSET = object()
# What leaves a statement: `break`, `continue` or `return`, with its label or what it returns; none where it goes on.
Jump = Optional[tuple[str, Any]]
PARTS = {"call", "receive", "make", "len", "cap"}


@dataclass(eq=False)
class Frame:
    """A call that has not returned."""

    function: Function
    cells: list[Any]


@dataclass(eq=False)
class Ask:
    """What the next step of a goroutine does: its form, the line of its statement, and what it evaluates."""

    form: str
    line: int
    found: Callable[[], Any] = lambda: None
    # The names of the variables that the step gives values to.
    gives: list[str] = field(default_factory=list)
    # The zero value of a receive, or the function of a call or a start.
    value: Any = None
    clauses: list[Case] = field(default_factory=list)


@dataclass(eq=False)
class Case:
    """A clause of a select: `send`, `receive` or `default`, with what it evaluates."""

    form: str
    channel: Optional[Callable[[], Value]] = None
    value: Any = None

    def name(self) -> Optional[str]:
        """The channel, where it has one that is not nil."""
        found: Optional[str] = self.channel() if self.channel else None
        return found


# What is done so far of the parts of an expression.
Done = dict[Expr, Value]
# A statement, and a part of an expression: each yields what its steps ask for, and is sent what came of them.
Does = Generator[Ask, Value, Jump]
Gives = Generator[Ask, Value, Value]
Goes = Generator[Ask, Value, None]


def has_part(expr: Expr) -> bool:
    return expr.form in PARTS or any(has_part(part) for part in expr.parts)


def evaluate(frame: Frame, expr: Expr, done: Done) -> Value:
    """The value of an expression, of which some parts are done."""
    if expr in done:
        value = done[expr]
        return evaluate(frame, value, done) if isinstance(value, Expr) else value
    if expr.form in ("constant", "text"):
        return expr.value
    if expr.form == "variable":
        return frame.cells[expr.value]
    first = evaluate(frame, expr.parts[0], done)
    if expr.form == "unary":
        return plain(UNARY[expr.value](first))
    if expr.value in ("&&", "||"):
        return first if first == (expr.value == "||") else evaluate(frame, expr.parts[1], done)
    return plain(BINARY[expr.value](first, evaluate(frame, expr.parts[1], done)))


class Run:
    """The run of one goroutine over the functions of a program."""

    def __init__(self, functions: dict[str, Function], goroutine: Goroutine) -> None:
        self.functions, self.goroutine = functions, goroutine

    def call(self, function: Function, arguments: list[Value]) -> Gives:
        """The body of a function, up to its return. The value is what it returns."""
        frame = Frame(function, [*arguments, *[UNSET] * (len(function.variables) - function.count)])
        self.goroutine.frames.append(frame)
        done = yield from self.all(frame, function.body)
        if done and done[0] == "return":
            return done[1]
        return (yield Ask("return", function.end))

    def all(self, frame: Frame, statements: list[Stmt]) -> Does:
        """Statements one after the other, until one of them jumps: its jump, or None."""
        for statement in statements:
            does: Callable[[Frame, Stmt], Does] = getattr(self, f"do_{statement.form}")
            jump = yield from does(frame, statement)
            if jump:
                return jump
        return None

    # Parts

    def parts(self, frame: Frame, expr: Expr, done: Done, line: int) -> Goes:
        """Does the parts of an expression, each a step of its own."""
        if expr.form == "binary" and expr.value in ("&&", "||") and has_part(expr.parts[1]):
            yield from self.parts(frame, expr.parts[0], done, line)
            left = yield Ask("pure", line, lambda: evaluate(frame, expr.parts[0], done))
            if left == (expr.value == "||"):
                done[expr] = left
                return
            done[expr] = expr.parts[1]
            yield from self.parts(frame, expr.parts[1], done, line)
            return
        for part in expr.parts:
            yield from self.parts(frame, part, done, line)
        if expr.form in PARTS:
            value = yield from self.part(frame, expr, done, line)
            done[expr] = value[0] if expr.form == "receive" else value

    def part(self, frame: Frame, expr: Expr, done: Done, line: int) -> Gives:
        """The step of a part whose own parts are done."""
        def found() -> list[Value]:
            return [evaluate(frame, part, done) for part in expr.parts]

        if expr.form == "call":
            return (yield from self.called(expr, found, line))
        return (yield Ask(expr.form, line, found, value=expr.zero))

    def called(self, expr: Expr, found: Callable[[], list[Value]], line: int) -> Gives:
        function = self.functions[expr.value]
        names = [name for name in function.variables[: function.count] if name != "_"]
        arguments = yield Ask("call", line, found, gives=names, value=function)
        return (yield from self.call(function, arguments))

    # Statements

    def do_block(self, frame: Frame, it: Stmt) -> Does:
        return (yield from self.all(frame, it.body))

    def do_expr(self, frame: Frame, it: Stmt) -> Does:
        expr = it.exprs[0]
        done: Done = {}
        for part in expr.parts:
            yield from self.parts(frame, part, done, it.line)
        if expr.form == "println":
            yield Ask("print", it.line, lambda: " ".join(text_of(evaluate(frame, part, done)) for part in expr.parts))
        elif expr.form == "close":
            yield Ask("close", it.line, lambda: evaluate(frame, expr.parts[0], done))
        else:
            yield from self.part(frame, expr, done, it.line)
        return None

    def do_assign(self, frame: Frame, it: Stmt) -> Does:
        done: Done = {}
        first = it.exprs[0]
        if len(it.names) > len(it.exprs):
            for part in first.parts:
                yield from self.parts(frame, part, done, it.line)
            values = yield from self.part(frame, first, done, it.line)
            yield self.assigning(frame, it, lambda: list(values))
            return None
        for expr in it.exprs:
            yield from self.parts(frame, expr, done, it.line)
        yield self.assigning(frame, it, lambda: [evaluate(frame, expr, done) for expr in it.exprs])
        return None

    def assigning(self, frame: Frame, it: Stmt, found: Callable[[], list[Value]]) -> Ask:
        """The step that gives variables their values."""
        def assign() -> None:
            for number, value in zip(it.names, found()):
                if number is not None:
                    frame.cells[number] = value

        names = [frame.function.variables[number] for number in it.names if number is not None]
        return Ask("pure", it.line, assign, gives=names)

    def do_send(self, frame: Frame, it: Stmt) -> Does:
        done: Done = {}
        for expr in it.exprs:
            yield from self.parts(frame, expr, done, it.line)
        yield Ask("send", it.line, lambda: [evaluate(frame, expr, done) for expr in it.exprs])
        return None

    def do_go(self, frame: Frame, it: Stmt) -> Does:
        call = it.exprs[0]
        done: Done = {}
        for part in call.parts:
            yield from self.parts(frame, part, done, it.line)

        def found() -> list[Value]:
            return [evaluate(frame, part, done) for part in call.parts]

        yield Ask("go", it.line, found, value=self.functions[call.value])
        return None

    def do_return(self, frame: Frame, it: Stmt) -> Does:
        done: Done = {}
        for expr in it.exprs:
            yield from self.parts(frame, expr, done, it.line)
        found = (lambda: evaluate(frame, it.exprs[0], done)) if it.exprs else (lambda: None)
        return "return", (yield Ask("return", it.line, found))

    def do_break(self, frame: Frame, it: Stmt) -> Does:
        yield Ask("pure", it.line)
        return "break", it.value

    def do_continue(self, frame: Frame, it: Stmt) -> Does:
        yield Ask("pure", it.line)
        return "continue", it.value

    def condition(self, frame: Frame, it: Stmt) -> Gives:
        done: Done = {}
        yield from self.parts(frame, it.exprs[0], done, it.line)
        return (yield Ask("pure", it.line, lambda: evaluate(frame, it.exprs[0], done)))

    def do_if(self, frame: Frame, it: Stmt) -> Does:
        if it.init:
            yield from self.all(frame, [it.init])
        holds = yield from self.condition(frame, it)
        return (yield from self.all(frame, it.body if holds else it.other))

    def do_for(self, frame: Frame, it: Stmt) -> Does:
        if it.init:
            yield from self.all(frame, [it.init])
        while (yield from self.condition(frame, it)):
            jump = yield from self.all(frame, it.body)
            if leaves(jump, it):
                return outward(jump, it)
            if it.post:
                yield from self.all(frame, [it.post])
        return None

    def do_range(self, frame: Frame, it: Stmt) -> Does:
        done: Done = {}
        yield from self.parts(frame, it.exprs[0], done, it.line)
        channel = yield Ask("pure", it.line, lambda: evaluate(frame, it.exprs[0], done))
        while True:
            value, is_open = yield Ask("receive", it.line, lambda: [channel], value=it.value)
            if not is_open:
                yield Ask("pure", it.line)
                return None
            yield self.assigning(frame, it, partial(list, [value]))
            jump = yield from self.all(frame, it.body)
            if leaves(jump, it):
                return outward(jump, it)

    def do_select(self, frame: Frame, it: Stmt) -> Does:
        done: Done = {}
        for clause in it.body:
            for expr in clause.exprs:
                yield from self.parts(frame, expr, done, it.line)
        chosen, value, is_open = yield Ask("select", it.line, clauses=[self.case(frame, clause, done) for clause in it.body])
        clause = it.body[chosen - 1]
        if clause.form == "receive" and clause.value[1]:
            names = frame.function.variables
            pair = [(number, given) for number, given in zip(clause.names, (value, is_open)) if number is not None]
            yield Ask("pure", it.line, lambda: assign_all(frame, pair), gives=[names[number] for number, _ in pair])
        jump = yield from self.all(frame, clause.body)
        return None if jump and jump[0] == "break" and jump[1] in (None, it.label) else jump

    def case(self, frame: Frame, clause: Stmt, done: Done) -> Case:
        if clause.form == "default":
            return Case("default")
        found = [partial(evaluate, frame, expr, done) for expr in clause.exprs]
        return Case(clause.form, found[0], found[1] if clause.form == "send" else clause.value[0])


def assign_all(frame: Frame, pairs: list[tuple[int, Value]]) -> None:
    for number, value in pairs:
        frame.cells[number] = value


def leaves(jump: Jump, loop: Stmt) -> bool:
    """Whether a jump out of the body of a loop does more than begin its next turn."""
    return jump is not None and not (jump[0] == "continue" and jump[1] in (None, loop.label))


def outward(jump: Jump, loop: Stmt) -> Jump:
    """What is left of a jump behind its loop."""
    return None if jump and jump[0] == "break" and jump[1] in (None, loop.label) else jump


__all__ = ["Ask", "Case", "Fault", "Frame", "Run", "UNSET"]
