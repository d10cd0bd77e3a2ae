"""The text of a program as it was when a session began. A session that begins later reads a copy of it."""
from __future__ import annotations

import os
import tempfile
from collections.abc import Iterator
from contextlib import ExitStack, contextmanager

from .errors import RewindError
from .program import Program


class Source:
    """The text of a program, and the file from which it came."""

    def __init__(self, program: Program) -> None:
        self.program = program

    @contextmanager
    def copied(self) -> Iterator[str]:
        """The path of a copy of the text, which is there for a while."""
        with ExitStack() as stack:
            try:
                folder = stack.enter_context(tempfile.TemporaryDirectory(prefix="rewind-"))
                path = os.path.join(folder, os.path.basename(self.program.path) or "source.go")
                with open(path, "wb") as file:
                    file.write(self.program.bytes)
            except OSError as fault:
                raise RewindError(f"a copy of {self.program.path} cannot be written: {fault.strerror}") from None
            yield path

    def has_changed(self) -> bool:
        """Whether the file has another text now, or can't be read any more."""
        try:
            with open(self.program.path, "rb") as file:
                return file.read() != self.program.written
        except OSError:
            return True
