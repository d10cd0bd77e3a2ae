"""The tokens of a source, each with its line, and Go's semicolons put in.

It is meant for sources that `rewind` has accepted, and tells no faults.
"""
from __future__ import annotations

import re
from collections.abc import Iterator
from typing import NamedTuple

TOKEN = re.compile(
    rb"""(?P<space>[ \t\r]+)
    | (?P<newline>\n)
    | (?P<line_comment>//[^\n]*)
    | (?P<comment>/\*.*?(?:\*/|\Z))
    | (?P<string>"(?:\\.|[^"\\\n])*"?)
    | (?P<word>[A-Za-z0-9_]+)
    | (?P<operator><-|:=|\+\+|--|&&|\|\||[=!<>]=|<<|>>|&\^|.)""",
    re.VERBOSE | re.DOTALL,
)

KEYWORDS = frozenset(
    "break case chan const continue default defer else fallthrough for func go goto if import interface map package"
    " range return select struct switch type var".split()
)
ENDING_KEYWORDS = frozenset(("break", "continue", "fallthrough", "return"))
ENDING_OPERATORS = frozenset(("++", "--", ")", "]", "}"))
BYTE_ORDER_MARK = b"\xef\xbb\xbf"


class Token(NamedTuple):
    text: str
    line: int
    is_name: bool = False

    @property
    def ends_operand(self) -> bool:
        """Whether an operand may end in the token, so that an operator after it has two sides."""
        return self.is_name or self.text[:1].isdigit() or self.text in (")", "}")


def ends_a_statement(token: Token) -> bool:
    """Whether a newline after the token stands for a semicolon."""
    if token.text in KEYWORDS:
        return token.text in ENDING_KEYWORDS
    first = token.text[0]
    return first.isalnum() or first in '_"' or token.text in ENDING_OPERATORS


def tokens(source: bytes) -> Iterator[Token]:
    """The tokens of a source in their order, with a semicolon wherever Go puts one in."""
    line, last = 1, Token(";", 1)
    text_of_source = source[len(BYTE_ORDER_MARK) :] if source.startswith(BYTE_ORDER_MARK) else source
    for match in TOKEN.finditer(text_of_source + b"\n"):
        text = match.group().decode("latin-1")
        ends_line = match.lastgroup == "newline" or (match.lastgroup == "comment" and "\n" in text)
        if ends_line and ends_a_statement(last):
            last = Token(";", line)
            yield last
        if match.lastgroup in ("string", "word", "operator"):
            last = Token(text, line, match.lastgroup == "word" and text not in KEYWORDS and not text[0].isdigit())
            yield last
        line += text.count("\n")


def all_tokens(source: bytes) -> list[Token]:
    return list(tokens(source))
