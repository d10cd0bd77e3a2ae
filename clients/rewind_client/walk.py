"""One walk over the tokens of a source, which notes its functions, statements, loops, calls and uses of channels."""
from __future__ import annotations

from collections.abc import Sequence
from dataclasses import dataclass, field
from typing import NamedTuple

from .flows import Flows, Part, flows_of
from .operations import Call, calls_of, parameters_of
from .tokens import Token

END = Token("", 0)


@dataclass
class Function:
    """A function of the source, from the line of its heading to that of its closing brace."""

    name: str
    line: int
    last_line: int = 0
    parameters: list[str] = field(default_factory=list)
    names: set[str] = field(default_factory=set)
    calls: list[Call] = field(default_factory=list)
    parts: list[Part] = field(default_factory=list)
    # The places of the tokens of each loop that come again with each turn.
    loops: list[tuple[int, int]] = field(default_factory=list)
    flows: Flows = Flows([], [], [])


class Clause(NamedTuple):
    """A clause of a select: the line of its `case` or `default`, and its text up to the colon."""

    line: int
    text: str


class Walk:
    """The walk itself: `lines` are those on which a statement begins, or a function ends.

    `widths` has the number of tokens of the statements that begin on a line, and `selects` the clauses of a select by its line.
    """

    def __init__(self, file_tokens: Sequence[Token]) -> None:
        self.tokens = file_tokens
        self.at = 0
        self.lines: set[int] = set()
        self.widths: dict[int, int] = {}
        self.selects: dict[int, list[Clause]] = {}
        self.functions: dict[str, Function] = {}
        self.function = Function("", 0)
        self.file()

    def peek(self, ahead: int = 0) -> Token:
        place = self.at + ahead
        return self.tokens[place] if place < len(self.tokens) else END

    def take(self) -> Token:
        token = self.peek()
        self.at += 1
        return token

    def file(self) -> None:
        while self.peek() is not END:
            if self.take().text == "func":
                self.one_function()

    def one_function(self) -> None:
        """A function behind its `func`; its closing brace is where its end is a step."""
        name = self.take()
        self.function = Function(name.text, name.line)
        self.functions[name.text] = self.function
        begin = self.at
        self.skip_parentheses()
        self.function.parameters = parameters_of(self.tokens[begin + 1 : self.at - 1])
        while self.peek().text not in ("{", ""):
            if self.take().text == "struct":
                self.at += 2
        self.function.last_line = self.block()
        if self.at <= len(self.tokens):
            self.function.parts.append(Part(self.function.last_line, self.at - 1, self.at))
        self.function.flows = flows_of(self.tokens, self.function.parts)
        self.function.names = {token.text for token in self.tokens[begin : self.at] if token.is_name}
        self.lines.add(self.function.last_line)

    def skip_parentheses(self) -> None:
        depth = 0
        while self.peek() is not END:
            token = self.take()
            depth += {"(": 1, ")": -1}.get(token.text, 0)
            if depth == 0:
                return

    def block(self) -> int:
        """A block from its opening brace on; the line of its closing one."""
        self.take()
        self.statements(("}",))
        return self.take().line

    def statements(self, ends: tuple[str, ...]) -> None:
        """Statements up to one of the words given, which is not taken."""
        while self.peek() is not END and self.peek().text not in ends:
            if self.peek().text == ";":
                self.take()
            else:
                self.statement()

    def statement(self) -> None:
        token = self.peek()
        if token.is_name and self.peek(1).text == ":":
            self.at += 2
        elif token.text == "{":
            self.block()
        elif token.text in ("if", "for"):
            self.headed()
        elif token.text == "select":
            self.select()
        else:
            self.lines.add(token.line)
            self.note(token.line, *self.part((";", "}")))

    def headed(self) -> None:
        """An `if` or a `for` with its heading, its body and what comes behind `else`."""
        keyword = self.take()
        self.lines.add(keyword.line)
        turns = self.heading(keyword.line)
        self.block()
        if keyword.text == "for":
            self.function.loops.append((turns, self.at))
        if self.peek().text == "else":
            self.take()
            self.statement()

    def heading(self, line: int) -> int:
        """The parts of a heading: the condition belongs to the statement, the others are statements of their own.

        Gives the place of what comes again with each turn: what stands before the first semicolon does not.
        """
        parts, clauses, turns = [], 0, self.at
        while self.peek().text not in ("{", ""):
            first = self.peek().line
            if self.peek().text != ";":
                parts.append((clauses, first, *self.part((";", "{"))))
            if self.peek().text == ";":
                self.take()
                clauses += 1
                turns = self.at if clauses == 1 else turns
        for clause, first, begin, end in parts:
            own = clauses > 0 and clause != 1
            if own:
                self.lines.add(first)
            self.note(first if own else line, begin, end)
        return turns

    def select(self) -> None:
        """A select: its clauses belong to it up to their bodies."""
        line, clause = self.take().line, 0
        self.lines.add(line)
        self.take()
        while self.peek().text in ("case", "default", ";"):
            if self.peek().text == ";":
                self.take()
                continue
            word = self.take()
            clause += 1
            begin, end = self.part((":",))
            text = " ".join([word.text, *(token.text for token in self.tokens[begin:end])])
            self.selects.setdefault(line, []).append(Clause(word.line, text))
            self.note(line, begin, end, clause)
            self.take()
            self.statements(("case", "default", "}"))
        self.take()

    def part(self, ends: tuple[str, ...]) -> tuple[int, int]:
        """Goes over the tokens of one statement up to one of the words given, outside parentheses: where they begin and end."""
        begin, depth = self.at, 0
        while self.peek() is not END and (depth > 0 or self.peek().text not in ends):
            token = self.take()
            depth += {"(": 1, ")": -1}.get(token.text, 0)
            if token.text == "struct":
                self.at += 2
                if self.peek().text == "{" and self.peek(1).text == "}":
                    self.at += 2
        return begin, min(self.at, len(self.tokens))

    def note(self, line: int, begin: int, end: int, clause: int = 0) -> None:
        """Notes the calls among some tokens."""
        part = self.tokens[begin:end]
        self.widths[line] = self.widths.get(line, 0) + len(part)
        self.function.calls += calls_of(part, line)
        self.function.parts.append(Part(line, begin, end, clause))
