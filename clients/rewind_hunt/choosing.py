"""A schedule by a scheduler: which goroutines are ready is asked after each step."""
from __future__ import annotations

from typing import TYPE_CHECKING

from rewind_client import replies
from rewind_client.core import step_words
from rewind_client.errors import RewindError
from rewind_client.names import child_of, step_owner
from rewind_client.program import Program
from rewind_client.replies import Entry, KindWord, State

from .choosers import Choice, Chooser, Ready

if TYPE_CHECKING:
    from .schedules import Scheduler

# After a step of these kinds a goroutine that waited may be ready.
WAKING = frozenset((KindWord.HAND, KindWord.MEET, KindWord.TAKE, KindWord.PICK, KindWord.CLOSE))


class Choosing:
    """Lets a chooser choose each step of a schedule."""

    def __init__(self, scheduler: Scheduler, program: Program, chooser: Chooser) -> None:
        self.scheduler = scheduler
        self.cases = {line: len(clauses) for line, clauses in program.selects.items()}
        self.chooser = chooser
        # The goroutines that are ready with the lines of their steps, in the order in which they became so; and those that wait.
        self.ready: dict[str, int] = {}
        self.waiting: list[str] = []

    def take(self) -> bool:
        """Takes the steps until the schedule ends: whether it ended since no goroutine is ready."""
        self.look(["g0"])
        while self.scheduler.goes_on():
            if not self.ready:
                return True
            choice = self.chosen([Ready(name, line, self.cases_of(name, line)) for name, line in self.ready.items()])
            taken = self.scheduler.try_steps([step_words(choice.goroutine, choice.case)])
            if not taken:
                raise RewindError(f"the scheduler chose a case of {choice.goroutine} that cannot proceed: {choice.case}")
            self.after(taken[0])
        return False

    def chosen(self, ready: list[Ready]) -> Choice:
        """What the chooser says, if that is one of the goroutines that are ready."""
        try:
            goroutine, case = self.chooser.choose(ready)
            choice = Choice(goroutine, int(case))
        except RewindError:
            raise
        except Exception as fault:  # whatever a scheduler of a user does
            raise RewindError(f"the scheduler has failed: {type(fault).__name__}: {fault}") from None
        if goroutine not in list(self.ready):
            raise RewindError(f"the scheduler chose {str(goroutine)[:40]}, which is not ready")
        return choice

    def cases_of(self, name: str, line: int) -> tuple[int, ...]:
        """The cases of a select that can proceed: each is tried and taken back."""
        found = []
        for case in range(1, self.cases.get(line, 0) + 1):
            if self.scheduler.ask([step_words(name, case)])[0].is_ok:
                self.scheduler.ask(["undo"])
                found.append(case)
        return tuple(found)

    def after(self, entry: Entry) -> None:
        """Looks at the goroutines that a step may have changed."""
        own = step_owner(entry.step)
        started = [child_of(own, self.scheduler.schedule.started[own])] if entry.kind.word is KindWord.GO else []
        self.look([own, *(self.waiting if entry.kind.word in WAKING else []), *started])

    def look(self, names: list[str]) -> None:
        for reply in self.scheduler.core.process.ask_all(["show " + name for name in names]):
            one = replies.goroutine(reply)
            if one.name in self.waiting:
                self.waiting.remove(one.name)
            if one.state is State.READY:
                self.ready[one.name] = one.line
                continue
            self.ready.pop(one.name, None)
            if one.state is State.WAITING:
                self.waiting.append(one.name)
