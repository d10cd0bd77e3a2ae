"""The tokens of a source that was refused, read leniently: whatever is there gives a token."""
from __future__ import annotations

import re
from typing import NamedTuple

KEYWORDS = frozenset(
    "break case chan const continue default defer else fallthrough for func go goto if import interface map package range "
    "return select struct switch type var".split()
)
# A line that ends with one of these has a semicolon after it.
ENDING_KEYWORDS = frozenset(["break", "continue", "fallthrough", "return"])
ENDING_OPERATORS = frozenset(["++", "--", ")", "]", "}"])
END_OF_FILE = "<end>"
GLUED_BEFORE = frozenset([",", ";", ")", "]", "."])
GLUED_AFTER = frozenset(["(", "[", ".", "!"])
UNARY = frozenset(["-", "+", "^", "<-"])
CLOSING = {")": "(", "]": "[", "}": "{"}

PIECE = re.compile(
    r"(?P<space>[ \t\r\ufeff]+)"
    r"|(?P<line>\n)"
    r"|(?P<comment>//[^\n]*|/\*(?:[^*]|\*(?!/))*(?:\*/|$))"
    r"|(?P<name>[A-Za-z_][A-Za-z_0-9]*)"
    r"|(?P<number>[0-9][0-9A-Za-z_.]*)"
    r"|(?P<text>\"(?:\\.|[^\"\\\n])*\"?|`[^`]*`?|'(?:\\.|[^'\\\n])*'?)"
    r"|(?P<operator>\.\.\.|&\^=|<<=|>>=|&&|\|\||<-|\+\+|--|==|!=|<=|>=|:=|[-+*/%&|^]=|<<|>>|&\^|.)",
    re.DOTALL,
)


class Token(NamedTuple):
    """A token and where it stands: lines and columns count from 1, and columns count bytes."""

    kind: str  # name, keyword, number, text, operator, end (of a statement, at the end of a line) or file (its end)
    text: str
    line: int
    column: int
    offset: int  # in characters, from the start of the source


def byte_length(text: str) -> int:
    """How many bytes a text has in the file that it was read from."""
    return len(text.encode("utf-8", "surrogateescape"))


def ends_statement(tokens: list[Token]) -> bool:
    """Whether the end of the line after these tokens ends a statement."""
    if not tokens:
        return False
    last = tokens[-1]
    if last.kind == "keyword":
        return last.text in ENDING_KEYWORDS
    if last.kind == "operator":
        return last.text in ENDING_OPERATORS
    return last.kind in ("name", "number", "text")


def tokens_of(source: str) -> list[Token]:
    """The tokens of a source, the last of kind `file`."""
    tokens: list[Token] = []
    line, column = 1, 1
    for match in PIECE.finditer(source):
        kind, text = match.lastgroup or "operator", match.group()
        if kind not in ("space", "line", "comment"):
            kind = "keyword" if kind == "name" and text in KEYWORDS else kind
            tokens.append(Token(kind, text, line, column, match.start()))
        elif "\n" in text and ends_statement(tokens):
            tokens.append(Token("end", "\n", line, column, match.start()))
        if "\n" in text:
            line, column = line + text.count("\n"), 1
        column += byte_length(text[text.rfind("\n") + 1 :])
    if ends_statement(tokens):
        tokens.append(Token("end", "\n", line, column, len(source)))
    tokens.append(Token("file", END_OF_FILE, line, column, len(source)))
    return tokens


def open_brackets(tokens: list[Token]) -> list[Token]:
    """The brackets that these tokens open and do not close, the innermost last."""
    opened: list[Token] = []
    for token in tokens:
        if token.kind != "operator":
            continue
        if token.text in "([{":
            opened.append(token)
        elif token.text in CLOSING and opened and opened[-1].text == CLOSING[token.text]:
            opened.pop()
    return opened


def text_of(source: str, tokens: list[Token], first: int, last: int) -> str:
    """The text of some tokens, on one line and without comments."""
    text = source[tokens[first].offset : tokens[last].offset + len(tokens[last].text)]
    if re.search("//|/[*]|\r?\n", text) is None:
        return text
    return spaced([token for token in tokens[first : last + 1] if token.kind not in ("end", "file")])


def spaced(tokens: list[Token]) -> str:
    """Tokens with spaces between them as a source has them."""
    text = ""
    for number, token in enumerate(tokens):
        before, earlier = (tokens[number - back] if number >= back else None for back in (1, 2))
        is_glued = token.text in GLUED_BEFORE or before is not None and before.text in GLUED_AFTER
        is_call = token.text == "(" and before is not None and before.kind == "name"
        is_unary = before is not None and before.text in UNARY and not (earlier and ends_statement([earlier]))
        text += token.text if is_glued or is_call or is_unary or not text else f" {token.text}"
    return text
