"""Reads the expressions of an accepted source, with the variables that are in scope."""
from __future__ import annotations

from typing import Optional

from .constants import constant, folded
from .tokens import Token, number_of, string_of
from .trees import Expr
from .values import Value

LEVELS = [("||",), ("&&",), ("==", "!=", "<", "<=", ">", ">="), ("+", "-", "|", "^"), ("*", "/", "%", "<<", ">>", "&", "&^")]
ZEROS: dict[str, Value] = {"int": 0, "bool": False, "struct{}": ()}


class ExpressionReader:
    """Reads from a list of tokens. It knows the types of the functions' results."""

    def __init__(self, found: list[Token], results: dict[str, str]) -> None:
        self.left, self.at, self.results = found, 0, results
        self.scopes: list[dict[str, int]] = []
        self.variables: list[str] = []
        self.types: list[str] = []
        self.heading = False

    # Tokens

    @property
    def token(self) -> Token:
        return self.left[self.at]

    def sees(self, text: str) -> bool:
        return self.token.text == text and self.token.kind != "text"

    def next(self) -> Token:
        self.at += 1
        return self.left[self.at - 1]

    def skip(self, text: str) -> bool:
        if self.sees(text):
            self.at += 1
            return True
        return False

    def take(self, text: str) -> None:
        if not self.skip(text):
            raise ValueError(f"line {self.token.line}: {self.token.text} in place of {text}")

    # Variables

    def declare(self, name: str, its_type: str) -> Optional[int]:
        """The number of a new variable; a blank one has none."""
        if name == "_":
            return None
        self.variables.append(name)
        self.types.append(its_type)
        self.scopes[-1][name] = len(self.variables) - 1
        return self.scopes[-1][name]

    def find(self, name: str) -> Optional[int]:
        for scope in reversed(self.scopes):
            if name in scope:
                return scope[name]
        return None

    def type_of(self, expr: Expr) -> str:
        """The type of an expression, as far as the zero value of a receive wants it."""
        if expr.form == "variable":
            return self.types[int(expr.value)]
        if expr.form in ("make", "receive", "constant", "call"):
            return expr.kind
        if expr.form == "unary":
            return "bool" if expr.value == "!" else "int"
        if expr.value in ("&&", "||", "==", "!=", "<", "<=", ">", ">="):
            return "bool"
        return "int"

    # Types

    def type(self) -> str:
        """A type, as a text; a channel's is `chan ` and its element's."""
        if self.skip("("):
            found = self.type()
            self.take(")")
            return found
        if self.skip("<-"):
            self.take("chan")
            return "chan " + self.type()
        if self.skip("chan"):
            self.skip("<-")
            return "chan " + self.type()
        if self.skip("struct"):
            self.take("{")
            self.take("}")
            return "struct{}"
        return self.next().text

    # Expressions

    def exprs(self) -> list[Expr]:
        found = [self.expr()]
        while self.skip(","):
            if self.sees(")"):
                break
            found.append(self.expr())
        return found

    def expr(self, level: int = 0) -> Expr:
        if level == len(LEVELS):
            return self.unary()
        left = self.expr(level + 1)
        while self.token.kind == "mark" and self.token.text in LEVELS[level]:
            operator = self.next().text
            left = folded(Expr("binary", operator, [left, self.expr(level + 1)]))
        return left

    def unary(self) -> Expr:
        if self.skip("<-"):
            return self.receive(self.unary())
        if self.token.kind == "mark" and self.token.text in "+-!^":
            return folded(Expr("unary", self.next().text, [self.unary()]))
        return self.operand()

    def receive(self, channel: Expr) -> Expr:
        found = Expr("receive", None, [channel])
        found.kind = self.type_of(channel)[len("chan "):]
        found.zero = ZEROS.get(found.kind)
        return found

    def operand(self) -> Expr:
        token = self.next()
        if token.kind == "number":
            return constant(number_of(token.text), "int")
        if token.kind == "text":
            return Expr("text", string_of(token.text))
        if token.text == "(":
            heading, self.heading = self.heading, False
            found = self.expr()
            self.heading = heading
            self.take(")")
            return found
        if token.text == "struct":
            for text in "{}{}":
                self.take(text)
            return constant((), "struct{}")
        if self.sees("("):
            return self.call(token.text)
        number = self.find(token.text)
        if number is not None:
            return Expr("variable", number)
        return constant({"true": True, "false": False, "nil": None}[token.text], "bool")

    def call(self, name: str) -> Expr:
        self.take("(")
        if name == "make":
            made = Expr("make")
            made.kind = self.type()
            made.parts = [self.expr()] if self.skip(",") and not self.sees(")") else []
            self.skip(",")
        else:
            heading, self.heading = self.heading, False
            made = Expr(name if name in ("len", "cap", "close", "println") and self.find(name) is None else "call", name)
            made.parts = [] if self.sees(")") else self.exprs()
            made.kind = self.results.get(name, "int")
            self.heading = heading
        self.take(")")
        return made
