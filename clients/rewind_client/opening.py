"""A session on a source, and a second one beside it when that is wanted."""
from __future__ import annotations

from dataclasses import replace

from .carried import CarriedProgram, carry
from .core import Core, unnoted
from .errors import RewindError, SourceRefused
from .finding import USUAL, Settings, start
from .program import Program, read_program
from .session import Session
from .source import Source


def open_session(rewind: str, path: str, settings: Settings = USUAL) -> Session:
    """A session on a source; SourceRefused where Rewind refuses it, and it can't be carried over.

    The second session has no workers and no journal.
    """
    core, program = begun(rewind, path, settings)
    source = Source(program)

    def begin() -> Core:
        """A second session, which has read the copy when it is there."""
        with source.copied() as copy:
            return start(rewind, copy, replace(settings, journal=unnoted, workers=0))

    return Session(core, source.program, begin, source)


def begun(rewind: str, path: str, settings: Settings) -> tuple[Core, Program]:
    """A session on a source, or on the program that it was carried over to; and that program."""
    try:
        core = start(rewind, path, settings)
    except SourceRefused as refused:
        program = carried_over(path, path, refused)
        with Source(program).copied() as copy:
            return start(rewind, copy, settings), program
    try:
        return core, read_program(path)
    except RewindError:
        core.process.end()
        raise


def carried_over(path: str, name: str, refused: SourceRefused) -> CarriedProgram:
    """The program to which a refused source is carried over, else the refusal, with all that stands against it."""
    found = carry(path, name)
    if found and found.program:
        return found.program
    left = found.left if found else ()
    raise SourceRefused(str(refused), refused.code, refused.line, refused.column, left) from None
