"""Reads the functions of an accepted source. A text that no source has is not noticed."""
from __future__ import annotations

from collections.abc import Callable
from typing import Optional, TypeVar

from .expressions import ZEROS, ExpressionReader
from .tokens import Token, tokens
from .trees import Expr, Function, Stmt

# What is read in a scope.
Read = TypeVar("Read")
ASSIGNING = {"+=", "-=", "*=", "/=", "%=", "&=", "|=", "^=", "<<=", ">>=", "&^="}


def functions(source: bytes) -> dict[str, Function]:
    """All functions of a source by name."""
    found = tokens(source)
    reader = Reader(found, results_of(found))
    reader.take("package")
    reader.next()
    reader.take(";")
    named = {}
    while not reader.sees(""):
        function = reader.function()
        if function.name != "_":
            named[function.name] = function
        reader.skip(";")
    return named


def results_of(found: list[Token]) -> dict[str, str]:
    """The type of each function's result."""
    results, depth = {}, 0
    for at, token in enumerate(found):
        depth += {"{": 1, "}": -1}.get(token.text, 0) if token.kind == "mark" else 0
        if token.text == "func" and token.kind == "word" and depth == 0:
            reader = Reader(found[at + 1:], {})
            reader.scopes = [{}]
            name = reader.next().text
            reader.parameters()
            results[name] = "" if reader.sees("{") else reader.type()
    return results


class Reader(ExpressionReader):
    """Reads functions and statements."""

    def parameters(self) -> int:
        self.take("(")
        while not self.skip(")"):
            names = [self.next().text]
            while self.skip(","):
                names.append(self.next().text)
            its_type = self.type()
            for name in names:
                self.variables.append(name)
                self.types.append(its_type)
                if name != "_":
                    self.scopes[-1][name] = len(self.variables) - 1
            self.skip(",")
        return len(self.variables)

    def function(self) -> Function:
        self.take("func")
        name = self.next().text
        self.scopes, self.variables, self.types = [{}], [], []
        count = self.parameters()
        if not self.sees("{"):
            self.type()
        self.take("{")
        body = self.statements()
        end = self.token.line
        self.take("}")
        return Function(name, self.variables, count, body, end)

    # Statements

    def scoped(self, read: Callable[[], Read]) -> Read:
        """What is read in a scope of its own, outside any heading."""
        self.scopes.append({})
        heading, self.heading = self.heading, False
        found = read()
        self.heading = heading
        self.scopes.pop()
        return found

    def statements(self) -> list[Stmt]:
        found = []
        while not (self.sees("}") or self.sees("case") or self.sees("default")):
            if self.skip(";"):
                continue
            found.append(self.statement())
        return found

    def block(self) -> list[Stmt]:
        self.take("{")
        found = self.scoped(self.statements)
        self.take("}")
        return found

    def statement(self, label: Optional[str] = None) -> Stmt:
        line, word = self.token.line, self.token.text
        if self.token.kind == "word" and word in FORMS:
            return FORMS[word](self, line, label)
        if word == "{":
            return Stmt("block", line, body=self.block())
        if self.token.kind == "name" and self.left[self.at + 1].text == ":":
            self.at += 2
            if self.sees(";") or self.sees("}"):
                return Stmt("block", line)
            return self.statement(word)
        return self.simple()

    def simple(self) -> Stmt:
        """A statement that begins with an expression or with names."""
        line = self.token.line
        start = self.at
        if self.token.kind == "name":
            found = self.named(line)
            if found:
                return found
            self.at = start
        expr = self.expr()
        if self.skip("<-"):
            return Stmt("send", line, exprs=[expr, self.expr()])
        return Stmt("expr", line, exprs=[expr])

    def named(self, line: int) -> Optional[Stmt]:
        """An assignment or a definition, if the names before it are followed by one."""
        names = [self.next().text]
        while self.skip(","):
            names.append(self.next().text)
        mark = self.token.text
        if mark in ("++", "--"):
            self.at += 1
            return self.update(line, names[0], mark[0], Expr("constant", 1))
        if mark in ASSIGNING:
            self.at += 1
            return self.update(line, names[0], mark[:-1], self.expr())
        if mark not in ("=", ":="):
            return None
        self.at += 1
        if self.sees("range"):
            return self.ranged(line, names[0], mark)
        exprs = self.exprs()
        targets = self.targets(names, mark, exprs)
        return Stmt("assign", line, names=targets, exprs=exprs)

    def targets(self, names: list[str], mark: str, exprs: list[Expr]) -> list[Optional[int]]:
        """The variables on the left; those that are new are declared after the values are read."""
        if mark == "=":
            return [self.find(name) if name != "_" else None for name in names]
        types = self.types_given(exprs, len(names))
        return [self.scopes[-1][name] if name in self.scopes[-1] else self.declare(name, its) for name, its in zip(names, types)]

    def types_given(self, exprs: list[Expr], count: int) -> list[str]:
        if len(exprs) == 1 and count == 2:
            return [self.type_of(exprs[0]), "bool"]
        return [self.type_of(expr) for expr in exprs]

    def update(self, line: int, name: str, operator: str, expr: Expr) -> Stmt:
        number = self.find(name)
        value = Expr("binary", operator, [Expr("variable", number), expr])
        return Stmt("assign", line, names=[number], exprs=[value])

    def ranged(self, line: int, name: str, mark: str) -> Stmt:
        """The heading of a range from the word `range` on; the loop reads the rest."""
        self.take("range")
        return Stmt("range", line, exprs=[self.expr()], value=(name, mark))

    def var(self, line: int, _label: Optional[str]) -> Stmt:
        self.take("var")
        names = [self.next().text]
        while self.skip(","):
            names.append(self.next().text)
        its_type = "" if self.sees("=") else self.type()
        if self.skip("="):
            exprs = self.exprs()
            types = [its_type] * len(names) if its_type else self.types_given(exprs, len(names))
        else:
            exprs = [Expr("constant", ZEROS.get(its_type)) for _ in names]
            types = [its_type] * len(names)
        targets = [self.declare(name, its) for name, its in zip(names, types)]
        return Stmt("assign", line, names=targets, exprs=exprs)

    def go(self, line: int, _label: Optional[str]) -> Stmt:
        self.take("go")
        return Stmt("go", line, exprs=[self.expr()])

    def returned(self, line: int, _label: Optional[str]) -> Stmt:
        self.take("return")
        return Stmt("return", line, exprs=[] if self.sees(";") or self.sees("}") else [self.expr()])

    def jump(self, line: int, _label: Optional[str]) -> Stmt:
        form = self.next().text
        return Stmt(form, line, value=self.next().text if self.token.kind == "name" else None)

    def chosen(self, line: int, label: Optional[str]) -> Stmt:
        """An `if`, with its else."""
        self.take("if")
        self.scopes.append({})
        self.heading = True
        init = None if self.sees(";") else self.simple()
        if self.skip(";"):
            condition = self.expr()
        else:
            assert init
            condition, init = init.exprs[0], None
        self.heading = False
        body = self.block()
        other: list[Stmt] = []
        if self.skip("else"):
            other = [self.statement()] if self.sees("if") else [Stmt("block", self.token.line, body=self.block())]
        self.scopes.pop()
        return Stmt("if", line, exprs=[condition], body=body, other=other, init=init, label=label)

    def loop(self, line: int, label: Optional[str]) -> Stmt:
        self.take("for")
        self.scopes.append({})
        self.heading = True
        found = self.loop_heading(line)
        self.heading = False
        found.label = label
        if found.form == "range":
            self.range_variable(found)
        found.body = self.block()
        self.scopes.pop()
        return found

    def loop_heading(self, line: int) -> Stmt:
        always = Expr("constant", True)
        if self.sees("{"):
            return Stmt("for", line, exprs=[always])
        if self.sees("range"):
            return self.ranged(line, "_", "=")
        init = None if self.sees(";") else self.simple()
        if init and init.form == "range":
            init.line = line
            return init
        if init and not self.skip(";"):
            return Stmt("for", line, exprs=[init.exprs[0]])
        if not init:
            self.take(";")
        condition = always if self.sees(";") else self.expr()
        self.take(";")
        post = None if self.sees("{") else self.simple()
        return Stmt("for", line, exprs=[condition], init=init, post=post)

    def range_variable(self, loop: Stmt) -> None:
        name, mark = loop.value
        element = self.type_of(loop.exprs[0])[len("chan "):]
        if mark == ":=":
            loop.names = [self.declare(name, element)]
        else:
            loop.names = [self.find(name) if name != "_" else None]
        loop.value = ZEROS.get(element)

    def select(self, line: int, label: Optional[str]) -> Stmt:
        self.take("select")
        self.take("{")
        clauses = []
        while not self.skip("}"):
            clauses.append(self.scoped(self.clause))
        return Stmt("select", line, body=clauses, label=label)

    def clause(self) -> Stmt:
        line = self.token.line
        if self.skip("default"):
            found = Stmt("default", line)
        else:
            self.take("case")
            found = self.communication(line)
        self.take(":")
        found.body = self.statements()
        return found

    def communication(self, line: int) -> Stmt:
        """A send; or a receive, with the variables that it gives values to."""
        made = self.simple()
        if made.form == "send":
            return made
        receive = made.exprs[0]
        has_names = made.form == "assign"
        return Stmt("receive", line, names=made.names, exprs=receive.parts, value=(receive.zero, has_names))


FORMS: dict[str, Callable[[Reader, int, Optional[str]], Stmt]] = {
    "var": Reader.var, "go": Reader.go, "return": Reader.returned, "break": Reader.jump, "continue": Reader.jump,
    "if": Reader.chosen, "for": Reader.loop, "select": Reader.select,
}
