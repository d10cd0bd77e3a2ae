"""The script of a schedule: only the steps that what was found depends on, in an order with few changes of goroutine."""
from __future__ import annotations

from collections.abc import Iterator, Sequence
from dataclasses import dataclass
from typing import Optional

from rewind_client import replies
from rewind_client.core import step_command
from rewind_client.explanations import explain
from rewind_client.names import step_number, step_of, step_owner
from rewind_client.program import Program
from rewind_client.replies import Entry, KindWord, Reply
from rewind_client.session import Session

from .hunting import Found, Hunt
from .outcomes import Judge, Kind, Outcome, Spot, spots, stopped_at_last
from .schedules import End, Schedule

MOST_STEPS = 6000
# The steps of a longer script stay in the order of their schedule.
MOST_ORDERED = 1500


@dataclass(frozen=True)
class Script:
    """Commands that lead from the start to what was found, and the steps that they take."""

    outcome: Outcome
    found: Found
    commands: tuple[str, ...]
    entries: tuple[Entry, ...]
    of_steps: int


class Reducer:
    """Makes scripts of the schedules of a hunt, and checks each by running it from the start."""

    def __init__(self, hunted: Hunt, program: Program) -> None:
        self.hunted = hunted
        self.begin = hunted.plan.begin
        self.program = program
        self.most_steps = hunted.plan.most_steps
        self.scheduler = hunted.plan.scheduler(program)
        self.judge = Judge(self.scheduler)

    def end(self) -> None:
        self.scheduler.end()

    def script(self, outcome: Outcome, found: Found) -> Optional[Script]:
        """The script that leads to one of the things against a schedule; none where the schedule is too long."""
        schedule = self.scheduler.take(outcome.number)
        if found.kind is not Kind.OUTPUT:
            self.judge.outcome(outcome.number, schedule)
        entries, commands = list(schedule.entries), schedule.commands()
        if not entries or len(entries) > MOST_STEPS:
            return None
        if outcome.end is End.UNENDED:
            return Script(outcome, found, tuple(commands), tuple(entries), len(entries))
        for targets in self.targets(outcome, found, entries):
            kept = self.causes(entries, targets)
            ordered = self.ordered(kept, self.prints(entries) if found.kind is Kind.OUTPUT else [])
            last = entries[-1:] if entries[-1].kind.stops else []
            script = self.checked(outcome, found, ordered + last, commands)
            if script:
                return script
            self.from_start(commands)
        return None

    # What is to be kept.

    def targets(self, outcome: Outcome, found: Found, entries: Sequence[Entry]) -> Iterator[list[str]]:
        """The steps that what was found depends on; more of them where the first ones are not enough.

        A fault and an exit stop the program, so that all steps come before them. What they need of these is the step before of their
        own goroutine, and for a fault of a closed channel the close.
        """
        last = entries[-1]
        own = [step_of(step_owner(last.step), step_number(last.step) - 1)] if step_number(last.step) > 1 else []
        if outcome.end is End.FAULT:
            yield own
            for close in [it.step for it in reversed(entries) if it.kind.word is KindWord.CLOSE]:
                yield own + [close]
        elif outcome.end is End.DEADLOCK:
            yield self.waits(cycle_alone=True)
            yield self.waits(cycle_alone=False)
        elif found.kind is Kind.OUTPUT:
            yield own + self.prints(entries)
        else:
            yield own + self.left(entries, found.spots)
            yield own + self.left(entries)
        yield [it.step for it in entries if not it.kind.stops]

    def waits(self, cycle_alone: bool) -> list[str]:
        """The steps with which the goroutines of a deadlock began to wait: those of the cycle, if there is one."""
        session = self.session()
        explanation = explain(session)
        names = explanation.cycle if cycle_alone and explanation.cycle else [wait.goroutine for wait in explanation.waits]
        return [wait.since for wait in explanation.waits if wait.goroutine in names]

    def session(self) -> Session:
        """What is known of the process as it stands."""
        session = Session(self.scheduler.core, self.program, self.begin)
        session.forget()
        return session

    def left(self, entries: Sequence[Entry], at: Sequence[Spot] = ()) -> list[str]:
        """The last steps of the goroutines that are not done, but for `main`; or of those that stand at some spots."""
        last: dict[str, str] = {step_owner(it.step): it.step for it in entries}
        shown = [one for one in self.judge.shown(list(last)) if one.name != "g0" and one.frames]
        return [last[one.name] for one in shown if not at or spots([stopped_at_last(one)])[0] in at]

    def prints(self, entries: Sequence[Entry]) -> list[str]:
        """The steps that printed, in their order; the process stands behind these steps."""
        self.from_start([step_command(entry) for entry in entries])
        return [fact.step for fact in self.session().noted() if fact.prints]

    def causes(self, entries: Sequence[Entry], targets: Sequence[str]) -> list[Entry]:
        """The entries of steps that some steps depend on."""
        kept: set[str] = set()
        for reply in self.scheduler.ask(["causes " + step for step in targets]):
            kept.update(replies.steps(reply))
        return [it for it in entries if it.step in kept and not it.kind.stops]

    # Their order.

    def ordered(self, kept: Sequence[Entry], prints: Sequence[str]) -> list[Entry]:
        """The steps in an order that respects dependence, with few changes of goroutine; those that print stay in their order."""
        if len(kept) > MOST_ORDERED:
            return list(kept)
        needs = self.needs(kept, prints)
        rest: dict[str, list[Entry]] = {}
        for entry in kept:
            rest.setdefault(step_owner(entry.step), []).append(entry)
        places = {entry.step: place for place, entry in enumerate(kept)}
        done: set[str] = set()
        found: list[Entry] = []
        while rest:
            ready = [name for name, entries in rest.items() if needs[entries[0].step] <= done]
            name = min(ready, key=lambda each: places[rest[each][0].step])
            while name in rest and needs[rest[name][0].step] <= done:
                entry = rest[name].pop(0)
                found.append(entry)
                done.add(entry.step)
                if not rest[name]:
                    del rest[name]
        return found

    def needs(self, kept: Sequence[Entry], prints: Sequence[str]) -> dict[str, frozenset[str]]:
        """The steps that must come before each."""
        causes = self.scheduler.ask(["causes " + entry.step for entry in kept])
        needs = {entry.step: frozenset(replies.steps(reply)) - {entry.step} for entry, reply in zip(kept, causes)}
        for earlier, later in zip(prints, prints[1:]):
            needs[later] |= {earlier}
        return needs

    # The check.

    def checked(self, outcome: Outcome, found: Found, entries: Sequence[Entry], schedule: Sequence[str]) -> Optional[Script]:
        """The script of these steps, if it leads to the same; as many of the first ones as can be are taken by one `run`."""
        for by_turns in dict.fromkeys((self.by_turns(entries), 0)):
            taken = self.taken_by_turns(by_turns)
            rest = [it for it in entries if it.step not in {entry.step for entry in taken}]
            commands = ([f"run {by_turns}"] if by_turns else []) + [step_command(it) for it in rest]
            if rest and rest[-1].kind.stops:
                commands[-1] = schedule[-1]
            if self.leads_to(outcome, found, commands, taken + rest):
                return Script(outcome, found, tuple(commands), tuple(taken + rest), len(schedule))
        return None

    def by_turns(self, entries: Sequence[Entry]) -> int:
        """How many of the first steps of a round robin are all among these."""
        wanted = set(entries)
        taken = self.taken_by_turns(len(entries))
        return next((count for count, entry in enumerate(taken) if entry not in wanted or entry.kind.stops), len(taken))

    def taken_by_turns(self, count: int) -> list[Entry]:
        """The first steps that `run` takes."""
        if count == 0:
            return []
        self.from_start([f"run {count}"])
        return self.scheduler.core.log()

    def from_start(self, commands: Sequence[str]) -> list[Reply]:
        self.scheduler.go_to_start()
        return self.scheduler.ask(commands)

    def leads_to(self, outcome: Outcome, found: Found, commands: Sequence[str], entries: Sequence[Entry]) -> bool:
        """Whether the commands take these steps and come to the same; of a deadlock the others may stand elsewhere."""
        self.from_start(commands)
        if self.scheduler.core.log() != list(entries):
            return False
        if outcome.end is End.DEADLOCK:
            self.scheduler.ask([f"run {self.most_steps * 2}"])
        come = self.now(outcome.number)
        return come.end is End.DEADLOCK if outcome.end is End.DEADLOCK else self.hunted.has_come_to(outcome, found, come)

    def now(self, number: int = -1) -> Outcome:
        """The outcome of a schedule that has come to where the process stands."""
        return self.judge.outcome(number, self.rebuilt())

    def rebuilt(self) -> Schedule:
        """The schedule whose end is where the process stands."""
        schedule = Schedule()
        for entry in self.scheduler.core.log():
            schedule.note(entry)
        self.scheduler.schedule = schedule
        if not schedule.stopped:
            self.scheduler.ends_stuck()
        return schedule
