"""Ctrl-C: it ends what the shell does, and not the session."""
from __future__ import annotations

import signal
import time
from typing import Any

# A command that Rewind is at gets so long to end on its own.
PATIENCE = 1.0


class Interrupts:
    """Takes account of Ctrl-C while a command is obeyed; between commands it is a KeyboardInterrupt as ever."""

    def __init__(self) -> None:
        self.is_busy = False
        self.came_at = 0.0

    def handle(self, _number: int, _frame: Any) -> None:
        if not self.is_busy:
            raise KeyboardInterrupt
        self.came_at = self.came_at or time.monotonic()

    def begin(self) -> None:
        """A command is obeyed from now on. The handler is set each time, since who reads lines may set another."""
        self.came_at, self.is_busy = 0.0, True
        signal.signal(signal.SIGINT, self.handle)

    def end(self) -> None:
        self.is_busy = False

    def pending(self) -> bool:
        """Whether Ctrl-C came since the command began."""
        return self.came_at > 0

    def gives_up(self) -> bool:
        """Whether it came, and Rewind had its time since then."""
        return self.came_at > 0 and time.monotonic() - self.came_at > PATIENCE
