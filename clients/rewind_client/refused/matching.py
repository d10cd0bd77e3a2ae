"""Finds the form of refusals.json that stands at a place, with the fields of its sentence."""
from __future__ import annotations

import re
from collections.abc import Mapping
from dataclasses import dataclass
from functools import lru_cache
from itertools import accumulate
from typing import Any, Optional

from .fields import around, computed
from .tokens import Token, byte_length, open_brackets, text_of, tokens_of

Form = Mapping[str, Any]
Matches = Mapping[str, "re.Match[str]"]
Range = tuple[int, int]
TOKENS_AROUND = 120


@dataclass(frozen=True)
class Place:
    """Where the form is, what it is about, and what the sentence may name."""

    form: str
    line: int
    column: int
    word: str
    fields: Mapping[str, str]
    start: int  # the part of the source in whose place the advice stands, in characters from the start
    end: int


@dataclass(frozen=True)
class Joined:
    """Some tokens of a source with one space between two, in which forms are looked for."""

    tokens: list[Token]
    source: str
    first: int  # the number of the first one

    @property
    def text(self) -> str:
        return " ".join(token.text for token in self.tokens)

    def numbers(self, start: int, end: int) -> list[int]:
        """The tokens that lie in a part of the text."""
        starts = accumulate((len(token.text) + 1 for token in self.tokens), initial=0)
        spans = zip(starts, self.tokens)
        return [self.first + n for n, (at, token) in enumerate(spans) if at < end and at + len(token.text) > start]

    def field(self, span: Range) -> str:
        """What a group has, as the source writes it."""
        numbers = [number - self.first for number in self.numbers(*span)]
        text = self.text[slice(*span)].strip()
        is_whole = numbers and " ".join(self.tokens[number].text for number in numbers) == text
        return text_of(self.source, self.tokens, numbers[0], numbers[-1]) if is_whole else text


@lru_cache(maxsize=None)
def pattern(text: str) -> re.Pattern[str]:
    """A regular expression of the table."""
    return re.compile(re.sub(r"\(\?<(?=[a-z])", "(?P<", text), re.DOTALL)


def at_byte(line: str, column: int) -> int:
    """The number of characters before a column that counts bytes from 1."""
    return len(line.encode("utf-8", "surrogateescape")[: column - 1].decode("utf-8", "surrogateescape"))


def matches_of(form: Form, before: str, at: str, inside: str, column: int) -> Optional[Matches]:
    """The matches of a form whose conditions hold, else none."""
    if form.get("inside", inside) != inside or form.get("column", column) != column:
        return None
    found = {}
    for key, text in (("at", at), ("before", before)):
        if key in form:
            match = pattern(form[key]).search(text)
            if match is None:
                return None
            found[key] = match
    return found


def in_text(forms: list[Form], source: str, line: int, column: int) -> Optional[Place]:
    """The form of a place at which the scanner refused the text."""
    lines = source.split("\n")
    text = lines[line - 1].rstrip("\r") if line <= len(lines) else ""
    start = at_byte(text, column)
    for form in forms:
        matches = matches_of(form, text[:start], text[start:], "", column)
        if matches is not None:
            groups = {name: value for match in matches.values() for name, value in match.groupdict().items() if value is not None}
            word = groups.get("word") or text[start : start + 1]
            at = max(start, text.find(word, start))
            offset = sum(len(each) + 1 for each in lines[: line - 1]) + at
            fields = {"word": word, **computed(word), **groups}
            return Place(form["form"], line, column + byte_length(text[start:at]), word, fields, offset, offset + len(word))
    return None


def number_at(tokens: list[Token], line: int, column: int) -> int:
    """The number of the token at a place, or of the last one."""
    return next((n for n, token in enumerate(tokens) if (token.line, token.column) >= (line, column)), len(tokens) - 1)


def in_tokens(forms: list[Form], source: str, line: int, column: int) -> Place:
    """The form of a place at which the parser refused the tokens."""
    tokens = tokens_of(source)
    number = number_at(tokens, line, column)
    begin = max(0, number - TOKENS_AROUND)
    parts = {
        "before": Joined(tokens[begin:number], source, begin),
        "at": Joined(tokens[number : number + TOKENS_AROUND], source, number),
    }
    opened = open_brackets(tokens[:number])
    fields = around(tokens, number, source.split("\n"))
    for form in forms:
        matches = matches_of(form, parts["before"].text, parts["at"].text, opened[-1].text if opened else "", column)
        if matches is not None:
            for key, match in matches.items():
                fields.update((name, parts[key].field(match.span(name))) for name, text in match.groupdict().items() if text is not None)
            first, end = words(form, number, parts, matches)
            put = matched(number, parts, matches, first) if form.get("put") == "match" else (first, end)
            return placed(form, source, tokens, (first, end), put, fields)
    return placed({}, source, tokens, (number, number + 1), (number, number + 1), fields)


def words(form: Form, number: int, parts: Mapping[str, Joined], matches: Matches) -> tuple[int, int]:
    """The tokens that a form is about: the first one, and the one after the last."""
    if "before" in matches and "mark" in matches["before"].groupdict():
        first = parts["before"].numbers(*matches["before"].span("mark"))[0]
        return first, first + 1
    first, end = form.get("words", [0, 1])
    return max(0, number + first), number + end


def matched(number: int, parts: Mapping[str, Joined], matches: Matches, marked: int) -> tuple[int, int]:
    """The tokens from the group `from` on, or from the marked ones, to the end of what `at` matches."""
    is_before = "before" in matches and "from" in matches["before"].groupdict()
    first = parts["before"].numbers(*matches["before"].span("from"))[0] if is_before else marked
    numbers = parts["at"].numbers(0, matches["at"].end()) if "at" in matches else []
    return first, numbers[-1] + 1 if numbers else number


def placed(form: Form, source: str, tokens: list[Token], marked: Range, put: Range, fields: Mapping[str, str]) -> Place:
    """The place of a form: the tokens that are marked, up to the end of their line, and those in whose place the advice stands."""
    first = tokens[marked[0]]
    start, end = span_of(tokens, *marked)
    word = "" if first.kind in ("end", "file") else source[start:end].split("\n")[0].rstrip("\r")
    return Place(form.get("form", ""), first.line, first.column, word, fields, *span_of(tokens, *put))


def span_of(tokens: list[Token], first: int, end: int) -> Range:
    """Where some tokens stand, in characters. Ends of statements and of the file have no text."""
    texts = [token for token in tokens[first:end] if token.kind not in ("end", "file")]
    start = tokens[first].offset
    return start, texts[-1].offset + len(texts[-1].text) if texts else start


def statement(tokens: list[Token], number: int, with_brace: bool) -> Range:
    """The tokens of a simple statement or of a heading, with the { after it or without."""
    depth, end = 0, number
    while tokens[end].kind != "file":
        text = tokens[end].text
        is_unit = text == "{" and tokens[end - 1].text in ("struct", "}")
        if depth == 0 and text == "{" and not is_unit:
            return number, end + with_brace
        if depth == 0 and text in ("\n", ";", ":", "}"):
            return number, end
        depth += (text in ("(", "{")) - (text in (")", "}"))
        end += 1
    return number, end
