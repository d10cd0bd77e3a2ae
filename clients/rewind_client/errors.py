"""What can go wrong between a client and `rewind`. The text of each error is one sentence for the user."""
from __future__ import annotations


class RewindError(Exception):
    """Something went wrong; the text says what, in words for the user."""


class NotFound(RewindError):
    """No `rewind` was found."""


class ProcessError(RewindError):
    """The process can't be started, is gone, or gives no answer."""


class Cancelled(RewindError):
    """The user stopped waiting for an answer, which still comes."""


class MalformedReply(ProcessError):
    """A reply has not the form that the replies to its command have."""

    def __init__(self, name: str, command: str, text: str) -> None:
        super().__init__(f"{name} gave an answer to '{command[:80]}' that means nothing: {text[:80]}")


class SourceRefused(RewindError):
    """The source is refused: `line` and `column` count from 1, and are 0 where the refusal has no place.

    `left` are all places of the source that are not carried over, where that was tried.
    """

    def __init__(self, sentence: str, code: str, line: int, column: int, left: tuple[str, ...] = ()) -> None:
        super().__init__(sentence)
        self.left = left
        self.code = code
        self.line = line
        self.column = column
