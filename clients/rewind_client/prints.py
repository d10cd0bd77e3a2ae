"""The line of the statement that printed each line."""
from __future__ import annotations

from .session import Session


def printing_lines(session: Session) -> list[int]:
    """The line of each `println` that was done, in the order of the printed lines; none are told of a long log."""
    return [fact.line for fact in session.noted() if fact.prints] if session.is_noted() else []
