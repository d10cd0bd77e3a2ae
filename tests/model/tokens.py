"""The tokens of an accepted source, each with its line."""
from __future__ import annotations

import re
from collections.abc import Iterator
from typing import NamedTuple

KEYWORDS = set(
    "break case chan continue default else for func go if package range return select struct var".split()
)
TOKEN = re.compile(
    rb"(?P<space>[ \t\r\n]+)|(?P<line>//[^\n]*)|(?P<comment>/\*.*?\*/)|(?P<number>\d\w*)|(?P<name>[A-Za-z_]\w*)"
    rb'|(?P<text>"(?:[^"\\]|\\.)*")|(?P<mark><<=|>>=|&\^=|<<|>>|&\^|\+=|-=|\*=|/=|%=|&=|\|=|\^=|&&|\|\||<-|\+\+|--'
    rb"|==|!=|<=|>=|:=|[-+*/%&|^<>=!(){},;:\[\].])",
    re.S | re.A,
)
# A line that ends with one of these gets a semicolon.
ENDS = {"break", "continue", "return", "++", "--", ")", "]", "}"}


class Token(NamedTuple):
    """A token: its kind (`name`, `word`, `number`, `text`, `mark` or `end`), its text, and its line."""

    kind: str
    text: str
    line: int


def ends_a_line(token: Token) -> bool:
    return token.kind in ("name", "number", "text") or token.text in ENDS


def pieces(source: bytes) -> Iterator[tuple[str, bytes, int]]:
    """The pieces of a source with the line at which each begins."""
    at, line = 3 if source.startswith(b"\xef\xbb\xbf") else 0, 1
    while at < len(source):
        found = TOKEN.match(source, at)
        if not found:
            raise ValueError(f"no token in line {line}")
        yield str(found.lastgroup), found[0], line
        line += found[0].count(b"\n")
        at = found.end()


def tokens(source: bytes) -> list[Token]:
    """All tokens, with the semicolons that the ends of lines bring."""
    found: list[Token] = []

    def end_line(line: int) -> None:
        if found and ends_a_line(found[-1]):
            found.append(Token("mark", ";", line))

    last = 1
    for kind, piece, line in pieces(source):
        if kind in ("space", "line", "comment"):
            if b"\n" in piece:
                end_line(line)
            continue
        text = piece.decode("latin-1")
        last = line
        found.append(Token("word" if kind == "name" and text in KEYWORDS else kind, text, line))
    end_line(last)
    return [*found, Token("end", "", last)]


def number_of(text: str) -> int:
    """The value of a number in any base."""
    digits = text.replace("_", "")
    if re.fullmatch(r"0[0-7]+", digits):
        return int(digits, 8)
    return int(digits, 0)


def string_of(text: str) -> str:
    """What a string spells, as a text of bytes."""
    return re.sub(r"\\(.)", lambda found: {"t": "\t"}.get(found[1], found[1]), text[1:-1])
