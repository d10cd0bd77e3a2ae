"""A session that takes the steps of another one's log."""
from __future__ import annotations

from collections.abc import Callable, Sequence
from typing import Optional

from . import replies
from .core import Core, step_command, step_words
from .errors import ProcessError
from .names import step_owner
from .replies import Entry, KindWord

PORTION = 5000
MAX_CLAUSES = 64


class Mirror:
    """Stands where a session with workers does, and answers what that one is not asked."""

    def __init__(self, begin: Callable[[], Core]) -> None:
        self.begin = begin
        self.core: Optional[Core] = None
        self.log: list[Entry] = []

    def end(self) -> None:
        if self.core is not None:
            self.core.process.end()
        self.core, self.log = None, []

    def behind(self, log: Sequence[Entry]) -> Core:
        """The session behind the last step of a log."""
        if self.core is None or self.core.process.ended or self.log != list(log[: len(self.log)]):
            self.end()
            self.core = self.begin()
        taken_again(self.core, log[len(self.log) :])
        self.log = list(log)
        return self.core


def taken_again(core: Core, log: Sequence[Entry]) -> None:
    """Takes steps again, in the order of their log."""
    faults = [entry for entry in log[-1:] if entry.kind.word is KindWord.FAULT]
    plain = log[: len(log) - len(faults)]
    for at in range(0, len(plain), PORTION):
        portion = plain[at : at + PORTION]
        for entry, reply in zip(portion, core.ask_all([step_command(it) for it in portion])):
            if not reply.is_ok or replies.stepped(reply) != entry:
                raise ProcessError(f"a second session went another way at {entry.step}: {reply.last[:80]}")
    for entry in faults:
        meet(core, entry)


def meet(core: Core, fault: Entry) -> None:
    """Takes a step that faulted. The log does not tell the clause of a select that faulted."""
    owner = step_owner(fault.step)
    for command in ["step " + owner, *(step_words(owner, clause) for clause in range(1, MAX_CLAUSES))]:
        reply = core.ask(command)
        if reply.is_ok:
            if replies.stepped(reply) == fault:
                return
            core.undo()
    raise ProcessError(f"a second session does not meet the fault {fault.step}")
