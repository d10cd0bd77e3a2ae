"""What is wrong in a source that Rewind refuses, in a sentence that a person needs.

    refusal = explain_refusal(source, "P2", 3, 1)
    print(refusal.text("x.go"))

The sentences stand in refusals.json. Under each code it has the meaning of the code and its forms, the most particular first.
A form of S1 to P4 has conditions, all of which must hold:

    at      a regular expression for the text from the place on
    before  one for the text before the place; its end is the place
    inside  the innermost bracket that is open at the place, or ""
    column  the column of the place

For S1 to S8 the text is that of the line. For P1 to P4 it is the tokens with one space between two, an end of a statement at the
end of a line as a newline, and the end of the file as `<end>`. The groups of both expressions are fields that the sentence
may name. `words` tells which tokens are marked, counted from the place: [-1, 2] are the one before it, it, and the next. A group
`mark` of `before` is marked in place of that.

A form has advice of two kinds, or none. `instead` is code in place of a part of the source, and `put` tells of which part:

    (none)     what is marked
    match      the tokens from the group `from` of `before` on, or from what is marked, to the end of what `at` matches
    line       the line, without its indentation and a comment
    above      nothing: it is a line of its own above that of the mark, or a statement before it
    before     nothing: it stands before the mark, with the end of a line after it
    statement  the statement that is refused, with the { after it where the code ends with one

`hint` is a sentence. A sentence shows at most 40 letters of a field, and code has all of it.

A form of C1 to C10 has no conditions: the package refused finds it and its fields. Where it is one of a group, `of` tells which,
and `names` are those that have this form. S7, S8, P4 and C11 have no place, and one form.
Groups are written (?<name>..), as in JavaScript.
"""
from __future__ import annotations

import json
import re
from collections.abc import Mapping
from dataclasses import dataclass
from functools import lru_cache
from pathlib import Path
from typing import Any, Optional

from .refused.matching import Place, at_byte, in_text, in_tokens, number_at, placed, statement
from .refused.reader import Fault, Names
from .refused.statements import fault_at
from .refused.tokens import tokens_of

TABLE = Path(__file__).with_name("refusals.json")
WIDTH = 100
LONGEST = 40


@dataclass(frozen=True)
class Change:
    """What stands instead: a text in place of a part of the source, in characters from its start."""

    start: int
    end: int
    text: str

    def made_in(self, source: str) -> str:
        """The source with this change."""
        return source[: self.start] + self.text + source[self.end :]


@dataclass(frozen=True)
class Refusal:
    """A refused source, explained. The line and column are those of the word; both are 0 where the code has no place."""

    code: str
    form: str  # its name in refusals.json, or "" where the meaning of the code is all that is known
    line: int
    column: int
    word: str
    sentence: str
    instead: Optional[str]  # code
    hint: Optional[str]  # a sentence
    line_text: str
    change: Optional[Change] = None  # puts the code in its place

    def text(self, file: str) -> str:
        """The sentence with its place, the line with a caret under the word, what to write instead, and what helps."""
        place = f"{file}:{self.line}:{self.column}" if self.line else file
        lines = [f"{place}: {self.sentence}"]
        if self.line and self.line_text.strip():
            lines += marked(self.line_text, self.column, self.word)
        if self.instead:
            lines.append(f"write instead: {self.instead}")
        if self.hint:
            lines.append(f"hint: {self.hint}")
        return "\n".join(lines)

    def brief(self) -> str:
        """All of it in one line, for a box or a message: the place, the sentence and the advice."""
        place = f"line {self.line}: " if self.line else ""
        instead = f" Write instead: {self.instead}" if self.instead else ""
        return f"{place}{self.sentence}.{instead}" + (f" Hint: {self.hint}." if self.hint else "")


def shown(text: str) -> str:
    """A text that a terminal can show: other bytes and signs as escapes."""
    return "".join(sign if sign.isprintable() or sign == "\t" else escaped(sign) for sign in text)


def escaped(sign: str) -> str:
    """A sign that cannot be printed, as an escape of one column or more."""
    number = ord(sign)
    if 0xDC80 <= number <= 0xDCFF:
        return f"\\x{number - 0xDC00:02x}"
    return f"\\u{number:04x}" if number > 0xFF else f"\\x{number:02x}"


def marked(line: str, column: int, word: str) -> list[str]:
    """The line, and carets under the word; a long line is cut around it."""
    start = at_byte(line, column)
    before, after = line[:start], line[start:]
    if len(before) + len(after) > WIDTH:
        before = "..." + before[-WIDTH // 2 :] if len(before) > WIDTH // 2 else before
        after = after[: WIDTH // 2] + "..." if len(after) > WIDTH // 2 else after
    gap = "".join("\t" if sign == "\t" else " " * len(shown(sign)) for sign in before)
    within = shown(word if after.startswith(word) else "")
    return [shown(before + after).rstrip(), gap + "^" * max(1, min(len(within), len(shown(after))))]


@lru_cache(maxsize=None)
def table() -> Mapping[str, Any]:
    """The table of sentences, by code."""
    found: Mapping[str, Any] = json.loads(TABLE.read_text(encoding="utf-8"))
    return found


@lru_cache(maxsize=None)
def names() -> Names:
    """The names that have a form of their own, by group, each with its form."""
    groups: dict[str, dict[str, str]] = {}
    for form in table()["C1"]["forms"]:
        groups.setdefault(form.get("of", ""), {}).update(dict.fromkeys(form.get("names", []), form["form"]))
    return groups


def in_statement(forms: list[Mapping[str, Any]], source: str, code: str, line: int, column: int) -> Place:
    """The form of a place at which the checker refused a statement or a heading."""
    tokens = tokens_of(source)
    number = number_at(tokens, line, column)
    fault: Optional[Fault] = fault_at(tokens, source, code, (line, column), names())
    if fault is None:
        return placed({}, source, tokens, (number, number + 1), (number, number + 1), {})
    form = next((each for each in forms if each["form"] == fault.form), {"form": fault.form})
    words = put = (fault.first, fault.last + 1)
    if form.get("put") == "statement":
        first = fault.first if tokens[number].text == "select" else number
        put = statement(tokens, first, with_brace=form["instead"].endswith("{"))
    return placed(form, source, tokens, words, put, fault.fields)


def place_of(source: str, code: str, line: int, column: int) -> Optional[Place]:
    """The form that stands at a place, with the fields of its sentence."""
    if not line or code not in table():
        return None
    forms = table()[code]["forms"]
    if code.startswith("S"):
        return in_text(forms, source, line, column)
    if code.startswith("P"):
        return in_tokens(forms, source, line, column)
    return in_statement(forms, source, code, line, column)


def filled(text: Optional[str], fields: Mapping[str, str], longest: Optional[int] = None) -> Optional[str]:
    """A sentence with its fields, or none where a field is not known."""
    if text is None:
        return None
    wanted = re.findall(r"\{([a-z_]+)\}", text)
    if any(name not in fields for name in wanted):
        return None
    return re.sub(r"\{([a-z_]+)\}", lambda match: shown(shortened(fields[match.group(1)], longest)), text)


def shortened(text: str, longest: Optional[int]) -> str:
    """A text, cut where it is too long for a sentence."""
    return text if longest is None or len(text) <= longest else text[: longest - 2] + ".."


def change_of(form: Mapping[str, Any], source: str, place: Place, instead: str) -> Change:
    """Puts the code of a form in its place."""
    begin = source.rfind("\n", 0, place.start) + 1
    line = source[begin:].split("\n")[0].split("//")[0]
    indentation = line[: len(line) - len(line.lstrip())]
    if form.get("put") == "line":
        return Change(begin + len(indentation), begin + len(line.rstrip()), instead)
    if form.get("put") == "before":
        return Change(place.start, place.start, f"{instead}\n")
    if form.get("put") == "above":
        before = source[begin : place.start]
        if not before.strip():
            return Change(begin, begin, f"{indentation}{instead}\n")
        return Change(place.start, place.start, f"{instead} " if before.rstrip().endswith("{") else f"; {instead} ")
    return Change(place.start, place.end, instead)


def explain_refusal(source: str, code: str, line: int = 0, column: int = 0) -> Refusal:
    """Explains a refusal of a source: its code and place are those that `rewind --check` tells.

    Bytes that are not UTF-8 stand in the source as Python's surrogate escapes.
    """
    form: Mapping[str, Any]
    place = place_of(source, code, line, column)
    meaning = table().get(code, {}).get("meaning", f"the source is refused with code {code}")
    lines = source.split("\n")
    if place is None:
        text = lines[line - 1].rstrip("\r") if 0 < line <= len(lines) else ""
        form = next(iter(table()[code]["forms"]), {}) if code in table() and not line else {}
        return Refusal(code, form.get("form", ""), line, column, "", form.get("sentence", meaning), None, None, text)
    form = next((each for each in table()[code]["forms"] if each["form"] == place.form), {})
    sentence = filled(form.get("sentence"), place.fields, LONGEST)
    instead = filled(form.get("instead"), place.fields) if sentence else None
    hint = filled(form.get("hint"), place.fields, LONGEST) if sentence else None
    change = change_of(form, source, place, instead) if instead else None
    text = lines[place.line - 1].rstrip("\r") if place.line <= len(lines) else ""
    return Refusal(code, place.form, place.line, place.column, place.word, sentence or meaning, instead, hint, text, change)
