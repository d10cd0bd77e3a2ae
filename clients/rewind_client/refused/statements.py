"""Reads the functions and statements of a source that the parser accepts, and finds what the checker refuses at a place."""
from __future__ import annotations

from typing import Optional

from .reader import Fault, Found, Function, Names, Scopes
from .simple import ENDS, SimpleStatements
from .tokens import Token
from .values import PREDECLARED, direction_of, element_of, is_assignable, is_channel

# The tokens of the value struct{}{}.
UNIT = ("struct", "{", "}", "{", "}")


class Statements(SimpleStatements):
    """Reads a file from its first token to its last, and raises Found at the fault that is looked for."""

    function: Optional[Function] = None
    labels: list[str]
    around: list[tuple[str, str]]  # the loops and selects around a statement, with their labels

    def at(self, number: int) -> None:
        """What follows belongs to the statement, or heading, that begins at this token."""
        self.place = (self.tokens[number].line, self.tokens[number].column)

    # Functions

    def file(self) -> None:
        self.around, self.labels = [], []
        self.at(0)
        if len(self.tokens) > 1 and self.tokens[1].text != "main":
            self.fault("C9", "package", 0, 1, name=self.tokens[1].text)
        if not any(a.text == "func" and b.text == "main" for a, b in zip(self.tokens, self.tokens[1:])):
            self.fault("C9", "no_main", 0, 1)
        starts = [n for n, token in enumerate(self.tokens) if token.text == "func"]
        names = {self.tokens[number + 1].text: number for number in reversed(starts)}
        self.functions = {name: Function(name, [], None, 0, "") for name in names}
        known: dict[str, Function] = {}
        for number in starts:
            self.heading(number, known)
        self.functions = known
        for number in starts:
            self.body(number)

    def heading(self, number: int, known: dict[str, Function]) -> Function:
        """Reads the heading of a function."""
        self.number = number + 1
        self.at(number)
        name = self.tokens[self.next()].text
        if name == "init" or name in PREDECLARED:
            self.fault("C2", "init" if name == "init" else "predeclared", number + 1, number + 1, name=name)
        if name in known:
            self.fault("C2", "function_twice", number + 1, number + 1, name=name, line=str(known[name].line))
        parameters = self.parameters()
        result = None if self.ahead().text == "{" else self.type()
        if name == "main" and (parameters or result is not None):
            self.fault("C9", "main_heading", number + 1, self.number - 1)
        function = Function(name, parameters, result, self.tokens[number].line, self.of(number, self.number - 1))
        known.setdefault(name, function)
        return function

    def parameters(self) -> list[tuple[str, str]]:
        found: list[tuple[str, str]] = []
        self.passes("(")
        while self.ahead().text != ")" and self.ahead().kind != "file":
            names = [self.next()]
            while self.passes(","):
                names.append(self.next())
            written, name = self.ahead().text, self.tokens[names[-1]].text
            if self.ahead().kind == "name" and written not in PREDECLARED and (name in PREDECLARED or name in self.names["type"]):
                self.fault("C1", "type_before_the_name", names[-1], self.number, name=written, type=name)
            own = self.type()
            for number in names:
                name = self.tokens[number].text
                if name in PREDECLARED:
                    self.fault("C2", "predeclared", number, number, name=name)
                if name != "_" and name in (other for other, _ in found):
                    self.fault("C2", "parameter_twice", number, number, name=name)
                found.append((name, own))
            if not self.passes(","):
                break
        self.passes(")")
        return found

    def body(self, number: int) -> None:
        """Reads the statements of a function."""
        function = self.heading(number, {})
        self.function = function
        self.scopes = Scopes()
        for name, own in function.parameters:
            self.scopes.declare(name, own, function.line)
        self.around, self.labels = [], []
        self.block()
        self.at(self.number - 1)
        result = function.result or ""
        zero = "nil" if is_channel(result) else {"int": "0", "bool": "false"}.get(result, "struct{}{}")
        self.fault("C6", "missing_return", self.number - 1, self.number - 1, name=function.name, result=result, zero=zero)

    def block(self) -> None:
        self.passes("{")
        while self.ahead().text not in ("}", "case", "default") and self.ahead().kind != "file":
            self.statement()
        self.passes("}")

    def inner(self) -> None:
        """A block with a scope of its own."""
        self.scopes.begin()
        self.block()
        self.scopes.end()

    # Statements

    def statement(self, label: str = "") -> None:
        token = self.ahead()
        self.at(self.number)
        before = self.number
        if token.kind == "keyword":
            self.of_keyword(token, label)
        elif token.text == "{":
            self.inner()
        elif token.kind == "name" and self.ahead(1).text == ":":
            self.label()
            return
        elif token.text not in (";", "\n"):
            self.simple()
        while self.ahead().text in (";", "\n"):
            self.next()
        if self.number == before:
            self.next()

    def of_keyword(self, token: Token, label: str) -> None:
        readers = {"if": self.branch, "var": self.var, "go": self.go, "return": self.returned}
        if token.text in ("for", "select"):
            self.around.append((token.text, label))
            if token.text == "for":
                self.loop()
            else:
                self.select()
            self.around.pop()
        elif token.text in ("break", "continue"):
            self.jump()
        elif token.text in readers:
            readers[token.text]()
        else:
            self.simple()

    def label(self) -> None:
        number = self.next()
        name = self.tokens[number].text
        self.passes(":")
        pairs = zip(self.tokens[number:], self.tokens[number + 1 :])
        used = any(jump.text in ("break", "continue") and named.text == name for jump, named in pairs)
        if name == "_":
            self.fault("C8", "label_blank", number, number)
        elif name in self.labels:
            self.fault("C2", "label_twice", number, number, name=name)
        elif not used or self.code == "C8":
            self.fault("C8", "label_unused", number, number, name=name)
        self.labels.append(name)
        while self.ahead().text in ("\n", ";"):
            self.next()
        if self.ahead().text != "}":
            self.statement(name)

    def jump(self) -> None:
        number = self.next()
        word = self.tokens[number].text
        kinds = ("for",) if word == "continue" else ("for", "select")
        if self.ahead().kind == "name":
            name = self.ahead().text
            labelled = {label: kind for kind, label in self.around if label}
            if name in labelled and labelled[name] not in kinds:
                self.fault("C8", "continue_of_a_select", number, self.number, name=name)
            elif name not in labelled:
                self.fault("C8", "label_unknown", self.number, self.number, name=name, jump=word)
            self.next()
        elif not any(kind in kinds for kind, _ in self.around):
            self.fault("C8", f"{word}_outside", number, number)

    def branch(self) -> None:
        """An `if` with its `else`."""
        first = self.next()
        self.scopes.begin()
        self.initial()
        self.at(first)
        self.condition("if")
        self.inner()
        if self.passes("else"):
            if self.ahead().text == "if":
                self.at(self.number)
                self.branch()
            else:
                self.inner()
        self.scopes.end()

    def initial(self) -> None:
        """The statement before the condition, if there is one."""
        number = self.number
        while self.tokens[number].text not in ("{", ";", "\n") and self.tokens[number].kind != "file":
            number += len(UNIT) if self.tokens[number].text == "struct" else 1
            number = min(number, len(self.tokens) - 1)
        if self.tokens[number].text in (";", "\n"):
            if self.number != number:
                self.at(self.number)
                self.simple()
            self.next()

    def condition(self, word: str) -> None:
        value = self.expression()
        if not value.may_be("bool") or value.kind == "nil":
            form = "condition_number" if value.own == "int" else "condition"
            self.misfit(form, value, statement=word)

    def loop(self) -> None:
        first = self.next()
        self.scopes.begin()
        ranged = self.range_ahead()
        if ranged:
            self.ranged()
        elif self.ahead().text != "{":
            self.initial()
            parts = self.tokens[self.number - 1].text == ";"
            self.at(first)
            if self.ahead().text not in (";", "{"):
                self.condition("for")
            if parts and self.passes(";") and self.ahead().text != "{":
                self.at(self.number)
                self.simple()
        self.inner()
        self.scopes.end()

    def range_ahead(self) -> bool:
        return "range" in (self.ahead().text, self.ahead(2).text)

    def ranged(self) -> None:
        """The heading of a `for` over a channel."""
        name = self.next() if self.ahead().kind == "name" else None
        sign = self.tokens[self.next()].text if name is not None else ""
        self.passes("range")
        value = self.expression()
        text = self.tokens[name].text if name is not None else ""
        if text == "_" and sign == ":=":
            self.fault("C10", "range_blank", name or 0, self.number - 1, channel=self.text(value))
        if value.own == "int":
            counter = text if text not in ("", "_") else self.free_name()
            self.fault("C3", "range_number", value.first, value.last, name=counter, sign=sign if counter == text else ":=")
        elif value.kind != "unknown" and not is_channel(value.own):
            self.misfit("range", value)
        if direction_of(value.own) == "send":
            self.fault("C5", "range", value.first, value.last, type=value.own, element=element_of(value.own))
        if name is not None and sign == ":=":
            self.new(name, element_of(value.own))
        elif name is not None:
            self.ranged_into(name, element_of(value.own))

    def ranged_into(self, number: int, element: str) -> None:
        """A variable that is there before the loop, and takes what the channel carries."""
        wanted = self.variable(number)
        if wanted and element and not is_assignable(element, wanted):
            self.fault("C3", "ranged_into", number, number, name=self.tokens[number].text, wanted=wanted, element=element)

    def select(self) -> None:
        first = self.next()
        self.passes("{")
        defaults = 0
        while self.ahead().text in ("case", "default"):
            self.scopes.begin()
            self.at(first)
            number = self.next()
            if self.tokens[number].text == "default":
                defaults += 1
                if defaults > 1:
                    self.fault("C2", "default_twice", number, number)
            else:
                self.simple(case=True)
            self.passes(":")
            while self.ahead().text not in ("}", "case", "default") and self.ahead().kind != "file":
                self.statement()
            self.scopes.end()
        self.passes("}")

    def go(self) -> None:
        first = self.next()
        name = self.ahead().text
        if name in PREDECLARED and not self.scopes.find(name):
            self.fault("C3", "go_of_a_built_in", first, self.number, name=name)
        self.call()

    def returned(self) -> None:
        first = self.next()
        result = self.function.result if self.function else None
        name = self.function.name if self.function else ""
        if self.ahead().text in ENDS:
            if result is not None:
                self.fault("C4", "return_without_value", first, first, name=name, result=result)
            return
        value = self.expression()
        if result is None:
            form = "return_from_main" if name == "main" else "return_without_result"
            self.fault("C4", form, first, value.last, name=name)
        else:
            self.check_fits(value, result, "returned", name=name, result=result)


def fault_at(tokens: list[Token], source: str, code: str, place: tuple[int, int], names: Names) -> Optional[Fault]:
    """The fault with this code in the statement, or heading, at a place; none where it is not found."""
    try:
        Statements(tokens, source, code, place, names).file()
    except Found as found:
        return found.fault
    except (IndexError, KeyError, RecursionError):
        return None
    return None
