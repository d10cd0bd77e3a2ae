"""What can stand next in a line: words, goroutines, channels, steps and lines."""
from __future__ import annotations

import glob
import os
import re
from collections.abc import Callable

from rewind_client.errors import RewindError

from .desk import Desk
from .words import WORDS, meant_words

SHOWN_STEPS = 200
# A variable or a channel that is begun.
NAME_AT_END = re.compile(r"[A-Za-z_][A-Za-z0-9_./]*$")


class Completing:
    """Finds the beginnings of words that fit."""

    def __init__(self, shell: Desk) -> None:
        self.shell = shell
        goroutine, channel, step, line = self.goroutines, self.channels, self.steps, self.lines
        self.by_word: dict[str, list[Callable[[], list[str]]]] = {
            **dict.fromkeys(("step", "show", "text", "bt", "goroutine"), [goroutine]),
            **dict.fromkeys(("deps", "causes", "direct", "order"), [step]),
            **dict.fromkeys(("break", "until", "list", "clear"), [line, self.functions]),
            "chan": [channel],
            "print": [self.variables, self.channel_variables, channel],
            "history": [goroutine, channel, self.channel_variables, lambda: ["all"]],
            "back": [step, line, self.variables, lambda: ["go", "send", "recv", "var"]],
            "preview": [step, line, lambda: ["go", "send", "recv", "var"]],
            "help": [self.words],
        }

    def of(self, before: str) -> list[str]:
        """What the last word of a line may become; the line ends where the cursor stands."""
        words = before.split(" ")
        first = [word for word in words if word][:1]
        last = words[-1]
        if len([word for word in words if word]) <= 1 and last:
            return [name for name in self.words() if name.startswith(last)] + (self.within(last) if self.shell.takes_values else [])
        name = meant_words([*first, last])[0] if first else None
        if name == "print":
            return self.within(last)
        if name in ("save", "load"):
            return sorted(path + ("/" if os.path.isdir(path) else "") for path in glob.glob(glob.escape(last) + "*"))
        try:
            found = [text for source in self.by_word.get(name or "", []) for text in source()]
        except RewindError:
            return []
        return [text for text in dict.fromkeys(found) if text.startswith(last)]

    def within(self, last: str) -> list[str]:
        """What a word may become that is an expression: the name at its end is completed."""
        begun = NAME_AT_END.search(last)
        before = last[: begun.start()] if begun else last
        try:
            names = [text for source in self.by_word["print"] for text in source()]
        except RewindError:
            return []
        return [before + text for text in dict.fromkeys(names) if text.startswith(last[len(before) :])]

    def words(self) -> list[str]:
        return sorted(word.name for word in WORDS)

    def goroutines(self) -> list[str]:
        return self.shell.session.goroutine_names()

    def channels(self) -> list[str]:
        return self.shell.session.channel_names()

    def steps(self) -> list[str]:
        return [entry.step for entry in reversed(self.shell.session.log()[-SHOWN_STEPS:])]

    def lines(self) -> list[str]:
        return [str(line) for line in self.shell.program.statements]

    def functions(self) -> list[str]:
        return sorted(self.shell.program.functions)

    def channel_variables(self) -> list[str]:
        """The names that replies have for channels."""
        names = self.shell.session.channel_names()[:SHOWN_STEPS]
        return [name for name in map(self.shell.session.variable_of, names) if name]

    def variables(self) -> list[str]:
        goroutine = self.shell.session.goroutine(self.shell.chosen)
        return [it.name for frame in (goroutine.frames if goroutine else ()) for it in frame.variables]
