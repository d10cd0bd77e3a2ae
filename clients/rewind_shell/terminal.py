"""What the shell writes to: a terminal with a width and colours, or a plain file."""
from __future__ import annotations

import os
import re
import shutil
import sys
import textwrap
from collections.abc import Callable, Iterable
from typing import TextIO

LEAST_WIDTH = 20
LINES_AT_ONCE = 500
COLOURS = {"error": "31", "good": "32", "note": "33", "source": "36", "strong": "1", "faint": "2"}
CONTROL = re.compile("[\x00-\x08\x0b-\x1f\x7f-\x9f]")


class Screen:
    """Where lines go. Sentences are broken at the width of a terminal, replies are never changed."""

    def __init__(self, out: TextIO, stopped: Callable[[], bool]) -> None:
        """Long replies end where `stopped` holds."""
        self.out = out
        self.stopped = stopped
        self.is_terminal = out.isatty()
        dumb = os.environ.get("TERM", "") in ("", "dumb")
        self.has_colours = self.is_terminal and not dumb and not os.environ.get("NO_COLOR")

    def width(self) -> int:
        return max(LEAST_WIDTH, shutil.get_terminal_size((80, 24)).columns)

    def colour(self, text: str, name: str) -> str:
        return f"\x1b[{COLOURS[name]}m{text}\x1b[0m" if self.has_colours and name and text else text

    def line(self, text: str = "", colour: str = "") -> None:
        """A line as it is, but for control characters at a terminal."""
        shown = CONTROL.sub("?", text) if self.is_terminal else text
        self.out.write(self.colour(shown, colour) + "\n")

    def say(self, text: str, colour: str = "") -> None:
        """A sentence, broken at the width of the terminal between words; what goes on in a new line is indented."""
        if not self.is_terminal or len(text) < self.width():
            self.line(text, colour)
            return
        indent = text[: len(text) - len(text.lstrip())]
        wraps = textwrap.TextWrapper(self.width() - 1, subsequent_indent=indent + "  ", break_long_words=False, break_on_hyphens=False)
        for part in wraps.wrap(text):
            self.line(part, colour)

    def row(self, text: str, colour: str = "") -> None:
        """A row of a table: cut at the width of a terminal."""
        if self.is_terminal and len(text) >= self.width():
            text = text[: self.width() - 3] + ".."
        self.line(text, colour)

    def reply(self, lines: Iterable[str]) -> None:
        """A reply of Rewind, unchanged."""
        for number, text in enumerate(lines, 1):
            last = text.split(" ", 1)[0]
            self.line(text, {"ok": "good", "no": "error", "?": "error"}.get(last, ""))
            if number % LINES_AT_ONCE == 0 and self.stopped():
                self.say("(the rest of the reply is left out)", "note")
                return

    def flush(self) -> None:
        self.out.flush()


def error(text: str) -> None:
    """One sentence on standard error."""
    sys.stderr.write(f"rewind-shell: {text}\n")
    sys.stderr.flush()
