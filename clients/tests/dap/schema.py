"""The published definitions of the Debug Adapter Protocol, and whether a message of the adapter is one of them.

They are those of Debian's node-vscode-debugprotocol, in TypeScript. Where that is not installed nothing is checked.
"""
import os
import re
from collections.abc import Iterator
from typing import Any, NamedTuple, Optional

PATH = "/usr/share/nodejs/@vscode/debugprotocol/lib/debugProtocol.d.ts"
COMMENT = re.compile(r"/\*.*?\*/|//[^\n]*", re.S)
TOKEN = re.compile(r"'[^']*'|[A-Za-z_]\w*|\S")
BASIC: dict[str, Any] = {"string": str, "number": (int, float), "boolean": bool, "null": type(None)}
FREE = ("any", "object")


class Field(NamedTuple):
    """A member of an object: its type, and whether it may be left out."""

    type: Any
    optional: bool


class Reader:
    """Reads interfaces and types. A type is a name, `'text'`, ("list", T), ("or", [T..]) or ("object", {name: Field})."""

    def __init__(self, text: str) -> None:
        self.tokens: list[str] = TOKEN.findall(COMMENT.sub("", text))
        self.at = 0
        self.types: dict[str, Any] = {}
        self.parents: dict[str, str] = {}
        while self.at < len(self.tokens):
            word = self.take()
            if word == "interface":
                self.interface()
            elif word == "type" and self.tokens[self.at + 1] == "=":
                name = self.take()
                self.at += 1
                self.types[name] = self.union()

    def take(self) -> str:
        self.at += 1
        return self.tokens[self.at - 1]

    def passes(self, word: str) -> bool:
        """Goes over a word, if it stands there."""
        stands = self.tokens[self.at] == word
        self.at += stands
        return stands

    def interface(self) -> None:
        name = self.take()
        if self.passes("extends"):
            self.parents[name] = self.take()
        self.take()
        self.types[name] = self.members()

    def members(self) -> tuple[str, dict[str, Field]]:
        """The members of an object behind its brace; the member [] stands for all others."""
        found = {}
        while not self.passes("}"):
            name = self.take()
            if name == "[":
                self.at += 4
                name = "[]"
            optional = self.passes("?")
            self.take()
            found[name] = Field(self.union(), optional)
            self.passes(";")
        return "object", found

    def union(self) -> Any:
        kinds = [self.one()]
        while self.passes("|"):
            kinds.append(self.one())
        return kinds[0] if len(kinds) == 1 else ("or", kinds)

    def one(self) -> Any:
        word = self.take()
        kind: Any = word
        if word == "{":
            kind = self.members()
        elif word == "(":
            kind = self.union()
            self.take()
        while self.passes("["):
            self.take()
            kind = ("list", kind)
        return kind


class Schema:
    """The definitions."""

    def __init__(self, text: str) -> None:
        reader = Reader(text)
        self.types, self.parents = reader.types, reader.parents

    def fields(self, name: str) -> dict[str, Field]:
        """The members of an interface, with those of the ones that it extends."""
        above = self.fields(self.parents[name]) if name in self.parents else {}
        return {**above, **self.types[name][1]}

    def faults(self, value: Any, kind: Any, where: str) -> Iterator[str]:
        """What is wrong with a value that should be of a type."""
        if kind in FREE:
            return
        if isinstance(kind, tuple):
            yield from self.faults_of_part(value, (str(kind[0]), kind[1]), where)
        elif kind in BASIC:
            if not isinstance(value, BASIC[kind]) or (kind == "number" and isinstance(value, bool)):
                yield f"{where} is no {kind}: {value!r}"
        elif kind.startswith("'"):
            if value != kind[1:-1]:
                yield f"{where} is not {kind}: {value!r}"
        elif self.types[kind][0] == "object":
            yield from self.faults_of_object(value, self.fields(kind), where)
        else:
            yield from self.faults(value, self.types[kind], where)

    def faults_of_part(self, value: Any, kind: tuple[str, Any], where: str) -> Iterator[str]:
        if kind[0] == "or":
            wrong = [list(self.faults(value, one, where)) for one in kind[1]]
            yield from [] if [] in wrong else wrong[0]
        elif kind[0] == "object":
            yield from self.faults_of_object(value, kind[1], where)
        elif not isinstance(value, list):
            yield f"{where} is no list: {value!r}"
        else:
            for number, one in enumerate(value):
                yield from self.faults(one, kind[1], f"{where}[{number}]")

    def faults_of_object(self, value: Any, fields: dict[str, Field], where: str) -> Iterator[str]:
        if not isinstance(value, dict):
            yield f"{where} is no object: {value!r}"
            return
        for name, field in fields.items():
            if name in value:
                yield from self.faults(value[name], field.type, where + "." + name)
            elif not field.optional and name != "[]":
                yield f"{where}.{name} is missing"
        if "[]" not in fields:
            yield from (f"{where}.{name} is not in the protocol" for name in value if name not in fields)

    def faults_of_message(self, message: dict[str, Any]) -> list[str]:
        """What is wrong with an event or a response; the requests of Rewind itself have no definition."""
        name = message.get("event") or message.get("command") or "?"
        kind = name[0].upper() + name[1:] + message["type"].capitalize()
        if message["type"] == "response" and not message["success"]:
            kind = "ErrorResponse"
        if kind not in self.types:
            is_own = message["type"] == "response" and name.startswith("rewind/")
            return [] if is_own else [f"there is no {kind}"]
        return list(self.faults(message, kind, kind))


def published() -> Optional[Schema]:
    """The definitions, where they are installed."""
    if not os.path.exists(PATH):
        return None
    with open(PATH, encoding="utf-8") as file:
        return Schema(file.read())
