"""What the console of an editor is told of the lines that a program printed."""
from __future__ import annotations

from collections.abc import Iterator, Sequence
from typing import NamedTuple

from rewind_client.printed import change

MAX_LINES = 100
# An event has no more letters of output than this.
MAX_OUTPUT = 1 << 16


class Piece(NamedTuple):
    """Some output, and the line of the statement that printed it; 0 where that is not known."""

    text: str
    line: int


def changes_in_words(before: list[str], now: list[str]) -> Iterator[tuple[str, str]]:
    """What to write in the console of an editor, which can't take lines back: categories of the protocol, with text."""
    found = change(before, now)
    if found.added:
        yield "stdout", "\n".join(found.added)
    if found.taken_back:
        yield "console", "\n".join("No longer printed: " + line for line in first_lines(found.taken_back))
    if found.reordered:
        yield "console", "\n".join(["The printed lines stand in another order now:"] + first_lines(now))


def first_lines(lines: list[str]) -> list[str]:
    """No more than MAX_LINES of some lines, with a word for the others."""
    left_out = len(lines) - MAX_LINES
    return lines[:MAX_LINES] + [f"(and {left_out} lines more)"] if left_out > 0 else lines


def pieces(printed: Sequence[str], places: Sequence[int]) -> Iterator[Piece]:
    """Printed lines, each with that of its statement, as pieces that an event holds: lines of one statement together."""
    text, at = "", 0
    for line, place in zip(printed, places):
        if text and (place != at or len(text) + len(line) >= MAX_OUTPUT):
            yield Piece(text, at)
            text = ""
        at = place
        text += line + "\n"
        while len(text) > MAX_OUTPUT:
            yield Piece(text[:MAX_OUTPUT], at)
            text = text[MAX_OUTPUT:]
    if text:
        yield Piece(text, at)
