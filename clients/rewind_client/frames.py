"""Frames and the steps that began them."""
from __future__ import annotations

from .names import step_number, step_of
from .replies import Goroutine
from .session import Session


def first_step_of_frame(session: Session, goroutine: Goroutine, depth: int) -> str:
    """The first step that a goroutine took in a frame, which may be still to come; the innermost frame has depth 0."""
    calls = session.open_calls(step_of(goroutine.name, goroutine.steps + 1))
    outer = len(calls) - 1 - depth
    return step_of(goroutine.name, step_number(calls[outer]) + 1 if outer >= 0 else 1)
