"""Goes over the tokens of a source that the parser accepts, knows its names, and ends at the fault that is looked for."""
from __future__ import annotations

import difflib
from collections.abc import Mapping
from dataclasses import dataclass, field
from typing import NamedTuple, Optional

from .tokens import Token, text_of
from .values import LOGICAL, PREDECLARED, TYPES, Value, channel_of, is_channel

# The forms of names that have one of their own, by group: names of Go that are left out, and others that are often written.
Names = Mapping[str, Mapping[str, str]]


FUNCTIONS = frozenset(["len", "cap", "make", "close", "println"])
CONSTANTS = {"bool": frozenset(["true", "false"]), "": frozenset(["true", "false"])}
MEASURES = frozenset(["len", "cap", "close"])
OF_NUMBERS = frozenset(["+", "-", "*", "/", "%", "<", ">", "<=", ">=", "<<", ">>"])


@dataclass(frozen=True)
class Fault:
    """A form of refusals.json, the numbers of the first and the last token that it is about, and its fields."""

    form: str
    first: int
    last: int
    fields: Mapping[str, str]


class Found(Exception):
    """The fault is found."""

    def __init__(self, fault: Fault) -> None:
        super().__init__(fault.form)
        self.fault = fault


class Function(NamedTuple):
    """The heading of a function."""

    name: str
    parameters: list[tuple[str, str]]
    result: Optional[str]
    line: int
    heading: str


@dataclass
class Scopes:
    """The variables that are declared, the innermost block last, and those of blocks that have ended."""

    blocks: list[dict[str, tuple[str, int]]] = field(default_factory=lambda: [{}])
    ended: dict[str, int] = field(default_factory=dict)

    def begin(self) -> None:
        self.blocks.append({})

    def end(self) -> None:
        for name, (_, line) in self.blocks.pop().items():
            self.ended[name] = line

    def declare(self, name: str, own: str, line: int) -> None:
        if name != "_":
            self.blocks[-1][name] = (own, line)

    def find(self, name: str) -> Optional[tuple[str, int]]:
        return next((block[name] for block in reversed(self.blocks) if name in block), None)

    def names(self) -> set[str]:
        return {name for block in self.blocks for name in block}


class Reader:
    """Raises Found at the fault with the code and in the statement that are looked for."""

    def __init__(self, tokens: list[Token], source: str, code: str, place: tuple[int, int], names: Names) -> None:
        self.tokens, self.source, self.code, self.wanted, self.names = tokens, source, code, place, names
        self.number = 0
        self.place = (0, 0)
        self.scopes = Scopes()
        self.functions: dict[str, Function] = {}

    # Tokens

    def ahead(self, distance: int = 0) -> Token:
        return self.tokens[min(self.number + distance, len(self.tokens) - 1)]

    def next(self) -> int:
        number = self.number
        self.number = min(number + 1, len(self.tokens) - 1)
        return number

    def passes(self, text: str) -> bool:
        """Goes over a token if it is this one."""
        if self.ahead().text != text or self.ahead().kind == "text":
            return False
        self.next()
        return True

    def of(self, first: int, last: int) -> str:
        """The text of some tokens, on one line."""
        return text_of(self.source, self.tokens, first, last)

    def text(self, value: Value) -> str:
        return self.of(value.first, value.last)

    def kind(self, value: Value) -> str:
        """The type of a value, for a sentence."""
        return "nil" if value.kind == "nil" else value.own or "of another type"

    def misfit(self, form: str, value: Value, **fields: str) -> None:
        """A value of the wrong type."""
        form = "nil_alone" if value.kind == "nil" else form
        self.fault("C3", form, value.first, value.last, **{"type": self.kind(value), **fields})

    def fault(self, code: str, form: str, first: int, last: int, **fields: str) -> None:
        """Ends the search if this is the fault that is looked for; else nothing is wrong."""
        if code == self.code and self.place == self.wanted:
            raise Found(Fault(form, first, last, {"what": self.of(first, last), **fields}))

    # Types

    def type(self) -> str:
        """Reads a type."""
        number = self.next()
        token = self.tokens[number]
        if token.text == "(":
            own = self.type()
            self.passes(")")
            return own
        if token.text == "struct":
            self.passes("{")
            self.passes("}")
            return "struct{}"
        if token.text == "<-":
            self.passes("chan")
            return channel_of("<-chan", self.type())
        if token.text == "chan":
            return channel_of("chan<-" if self.passes("<-") else "chan", self.type())
        return self.named_type(number)

    def named_type(self, number: int) -> str:
        name = self.tokens[number].text
        if name in TYPES:
            return name
        if self.is_known(name):
            self.fault("C3", "no_type", number, number, name=name)
        elif name in self.names["type"]:
            self.fault("C1", self.names["type"][name], number, number, name=name)
        self.fault("C1", "type_unknown", number, number, name=name)
        return ""

    def is_known(self, name: str) -> bool:
        return name in PREDECLARED or self.scopes.find(name) is not None or name in self.functions

    def meant(self, number: int, what: str) -> frozenset[str]:
        """The names that fit where one stands which is not declared: functions, or variables of the type that is wanted."""
        if what == "function":
            return FUNCTIONS | frozenset(self.functions)
        wanted = self.wanted_at(number)
        found = ((name, self.scopes.find(name)) for name in self.scopes.names())
        fitting = frozenset(name for name, variable in found if variable and has_type(variable[0], wanted))
        return fitting | CONSTANTS.get(wanted, frozenset())

    def wanted_at(self, number: int) -> str:
        """The type that the place of a name wants: chan, int or bool, or "" where any will do."""
        earlier, before, after = (self.tokens[max(0, number + step)] for step in (-2, -1, 1))
        is_received = before.text == "<-" and not (earlier.kind in ("name", "number") or earlier.text == ")")
        if is_received or before.text == "range" or after.text == "<-" or (before.text == "(" and earlier.text in MEASURES):
            return "chan"
        if before.text == "!" or {before.text, after.text} & LOGICAL:
            return "bool"
        return "int" if {before.text, after.text} & OF_NUMBERS or after.text in ("++", "--", "+=", "-=") else ""

    def free_name(self) -> str:
        """A name for a counter that no variable here has."""
        return next((name for name in "ijknm" if not self.scopes.find(name)), "count")

    def unknown(self, number: int, what: str) -> None:
        """A name that is not declared."""
        name = self.tokens[number].text
        pairs = zip(self.tokens[number + 1 :], self.tokens[number + 2 :])
        later = next((token.line for token, after in pairs if token.text == name and after.text == ":="), 0)
        near = difflib.get_close_matches(name, sorted(self.meant(number, what)), 1, 0.75)
        if name in self.names["unknown"]:
            self.fault("C1", self.names["unknown"][name], number, number, name=name)
        elif name in self.scopes.ended:
            self.fault("C1", "out_of_scope", number, number, name=name, line=str(self.scopes.ended[name]))
        elif near:
            self.fault("C1", "misspelt", number, number, name=name, near=near[0])
        elif later:
            self.fault("C1", "before_its_declaration", number, number, name=name, line=str(later))
        self.fault("C1", f"unknown_{what}", number, number, name=name)


def has_type(own: str, wanted: str) -> bool:
    """Whether a variable may stand where a type is wanted."""
    return not own or not wanted or (is_channel(own) if wanted == "chan" else own == wanted)


def plainly(wanted: str) -> str:
    """Values of a type, in a sentence."""
    return "truth values" if wanted == "bool" else "numbers"


def of_given(count: int) -> str:
    """How many arguments are given, in a sentence."""
    return f"{count or 'none'} {'is' if count < 2 else 'are'} given"


def counted(count: int, what: str) -> str:
    """A count of things, in a sentence."""
    return f"{count} {what}" + ("" if count == 1 else "s")
