"""Expressions that a user writes: whether they can be read, of which type they are, and their values in a frame."""
from __future__ import annotations

from collections.abc import Callable, Iterator, Sequence
from enum import Enum
from typing import Optional

from .names import is_channel
from .program import Program
from .session import Session
from .tokens import all_tokens
from .values import COMPARED, EQUAL, LOGICAL, NotPlain, Reading, Told, number_of, told_of, unfit


class Type(Enum):
    """The type of an expression, as far as the text tells it."""

    INT = "a number"
    BOOL = "a truth value"
    OTHER = "a channel or a token"
    UNKNOWN = "not known"


TYPES = {"int": Type.INT, "bool": Type.BOOL}


def words_in(expression: str) -> list[str]:
    """The tokens of an expression."""
    return [token.text for token in all_tokens(expression.encode("utf-8", "replace")) if token.text != ";"]


def names_in(expression: str) -> list[str]:
    """The variables that an expression names."""
    words = words_in(expression)
    calls = [word in ("len", "cap") and after == "(" for word, after in zip(words, [*words[1:], ""])]
    plain = [word for word, is_call in zip(words, calls) if not is_call]
    return [word for word in plain if word.isidentifier() and word not in ("true", "false", "nil")]


def evaluated(expression: str, session: Session, variable: Callable[[str], str]) -> Told:
    """The value of an expression over variables, with `len` and `cap` of channels; or why it cannot be told."""
    words = words_in(expression)
    return told_of(words, variable, lambda word, value: measured(session, word, value)) if words else Told("", "it is empty")


def measured(session: Session, word: str, value: str) -> str:
    """The number of items of a channel, or its capacity; those of a nil channel are 0."""
    channel = session.channel(value) if is_channel(value) else None
    if channel is None:
        return "0" if value == "nil" else ""
    return str(len(channel.items) if word == "len" else channel.capacity)


def fault_of_condition(expression: str, program: Program, function: str) -> str:
    """Why an expression cannot be a condition in a function; an empty text where it may be one."""
    strange = [name for name in names_in(expression) if not program.has_variable(function, name)]
    if strange:
        return f"there is no variable '{strange[0][:40]}' here"
    try:
        found = TypeReading(words_in(expression), variables_of(program, function)).whole()
    except NotPlain as fault:
        return str(fault)
    return "" if found in (Type.BOOL, Type.UNKNOWN) else f"it is {found.value}, and no truth value"


class TypeReading(Reading[Type]):
    """Reads the type of an expression."""

    def __init__(self, tokens: Sequence[str], variables: dict[str, Type]) -> None:
        super().__init__(tokens)
        self.variables = variables

    def combined(self, operator: str, left: Type, right: Type) -> Type:
        known = [it for it in (left, right) if it is not Type.UNKNOWN]
        if operator in EQUAL:
            fits = len(set(known)) < 2
        else:
            wanted = Type.BOOL if operator in LOGICAL else Type.INT
            fits = all(it is wanted for it in known)
        if not fits:
            raise NotPlain(unfit(operator))
        return Type.BOOL if operator in LOGICAL or operator in EQUAL or operator in COMPARED else Type.INT

    def signed(self, operator: str, operand: Type) -> Type:
        wanted = Type.BOOL if operator == "!" else Type.INT
        if operand not in (wanted, Type.UNKNOWN):
            raise NotPlain(unfit(operator))
        return wanted

    def measured(self, word: str, name: str) -> Type:
        if self.variables.get(name, Type.UNKNOWN) in (Type.INT, Type.BOOL):
            raise NotPlain(f"'{word}' wants a channel")
        return Type.INT

    def number(self, token: str) -> Type:
        number_of(token)
        return Type.INT

    def named(self, token: str) -> Type:
        if token in ("true", "false"):
            return Type.BOOL
        return Type.OTHER if token == "nil" else self.variables.get(token, Type.UNKNOWN)


def variables_of(program: Program, function: str) -> dict[str, Type]:
    """The types of the variables of a function, as far as declarations tell them; a name of two types is not known."""
    found: dict[str, Type] = {}
    place = program.functions.get(function)
    if place is None:
        return found
    words = [token.text for token in all_tokens(program.bytes) if place.line <= token.line <= place.last_line]
    start = next((at for at, word in enumerate(words) if word == "func" and words[at + 1 : at + 2] == [function]), 0)
    for names, type_of in declarations(words[start:], found):
        for name in names:
            found[name] = type_of if found.get(name, type_of) is type_of else Type.UNKNOWN
    return found


def declarations(words: Sequence[str], known: dict[str, Type]) -> "Iterator[tuple[list[str], Type]]":
    """The names that the heading of a function and its statements declare, with their types; `known` has those before."""
    if "(" in words and ")" in words:
        yield from listed(words[words.index("(") + 1 : words.index(")")])
    for at, word in enumerate(words):
        if word == "var":
            yield from listed(words[at + 1 : behind(words, at, (";", "="))])
        elif word == ":=" and at and words[at - 2 : at - 1] != [","]:
            yield [words[at - 1]], type_behind(words[at + 1 : behind(words, at, (";", "{"))], known)
        elif word == ":=":
            yield names_before(words, at), Type.UNKNOWN


def behind(words: Sequence[str], at: int, ends: Sequence[str]) -> int:
    """Where one of some words comes next."""
    return next((place for place in range(at + 1, len(words)) if words[place] in ends), len(words))


def names_before(words: Sequence[str], at: int) -> list[str]:
    """The names of a list that ends before a place."""
    found = [words[at - 1]]
    while at >= 3 and words[at - 2] == ",":
        at -= 2
        found.append(words[at - 1])
    return found


def listed(words: Sequence[str]) -> "Iterator[tuple[list[str], Type]]":
    """Names with their types: `a, b int, c chan int`."""
    names: list[str] = []
    parts = " ".join(words).split(" , ")
    for part in parts:
        name, _, type_words = part.partition(" ")
        names.append(name)
        if type_words:
            yield names, TYPES.get(type_words, Type.OTHER)
            names = []


def type_behind(words: Sequence[str], known: dict[str, Type]) -> Type:
    """The type of what a variable is given first."""
    try:
        found: Optional[Type] = TypeReading(words, known).whole()
    except NotPlain:
        found = Type.OTHER if list(words[:2]) == ["make", "("] else None
    return found or Type.UNKNOWN
