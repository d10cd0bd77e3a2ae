"""Where commands come from: a terminal with history and completion, a plain terminal, or a file."""
from __future__ import annotations

import importlib
import importlib.util
import os
import signal
import sys
from collections.abc import Iterable
from typing import TYPE_CHECKING, Protocol

from rewind_client.errors import RewindError

from .completing import Completing
from .saving import state_folder

if TYPE_CHECKING:
    from prompt_toolkit.completion import CompleteEvent, Completer, Completion
    from prompt_toolkit.document import Document

INTERRUPT = frozenset((signal.SIGINT,))
MISSING = (
    "history, completion and Ctrl-R need prompt_toolkit, which this Python does not have: apt-get install python3-prompt-toolkit"
)


class CannotRead(RewindError):
    """No more lines can be read."""


class Reader(Protocol):
    """Gives lines; EOFError at their end, KeyboardInterrupt at Ctrl-C."""

    def read(self, prompt: str) -> str:
        ...


class FileReader:
    """Lines of a standard input that is no terminal."""

    def read(self, prompt: str) -> str:
        try:
            line = sys.stdin.buffer.readline()
        except OSError as fault:
            raise CannotRead(f"standard input cannot be read: {fault.strerror}") from None
        if not line:
            raise EOFError
        return line.decode("utf-8", "backslashreplace").rstrip("\n")


class PlainReader:
    """A terminal without prompt_toolkit; one that can do more than lines has arrow keys none the less."""

    def __init__(self) -> None:
        if has_rich_terminal() and importlib.util.find_spec("readline"):
            importlib.import_module("readline")

    def read(self, prompt: str) -> str:
        return input(prompt)


class RichReader:
    """A terminal with history, completion and Ctrl-R."""

    def __init__(self, completing: Completing, has_colours: bool) -> None:
        from prompt_toolkit import PromptSession
        from prompt_toolkit.history import FileHistory, History, InMemoryHistory

        history: History
        try:
            history = FileHistory(os.path.join(state_folder(), "history"))
            open(os.path.join(state_folder(), "history"), "ab").close()
        except OSError:
            history = InMemoryHistory()
        self.has_colours = has_colours
        self.session: PromptSession[str] = PromptSession(
            history=history, completer=completer_of(completing), complete_while_typing=False
        )

    def read(self, prompt: str) -> str:
        """Ctrl-C waits until the prompt is there: a loop of asyncio that it meets while it is made would be left half made."""
        from prompt_toolkit.formatted_text import FormattedText

        signal.pthread_sigmask(signal.SIG_BLOCK, INTERRUPT)
        try:
            return self.session.prompt(FormattedText([("bold" if self.has_colours else "", prompt)]), pre_run=let_interrupts_in)
        finally:
            let_interrupts_in()


def let_interrupts_in() -> None:
    signal.pthread_sigmask(signal.SIG_UNBLOCK, INTERRUPT)


def completer_of(completing: Completing) -> Completer:
    """Completion as prompt_toolkit asks for it."""
    from prompt_toolkit import completion

    class Words(completion.Completer):
        def get_completions(self, document: Document, complete_event: CompleteEvent) -> Iterable[Completion]:
            before = document.text_before_cursor
            last = before.split(" ")[-1]
            for text in completing.of(before):
                yield completion.Completion(text, start_position=-len(last))

    return Words()


def has_rich_terminal() -> bool:
    """Whether standard input and output are a terminal that can do more than lines."""
    is_terminal = sys.stdin.isatty() and sys.stdout.isatty()
    return is_terminal and os.environ.get("TERM", "") not in ("", "dumb")
