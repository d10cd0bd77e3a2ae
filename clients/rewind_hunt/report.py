"""What a hunt found, in words."""
from __future__ import annotations

import os
import re
import shlex
from collections.abc import Iterable, Iterator, Sequence
from typing import Optional

from rewind_client.explanations import explain
from rewind_client.meanings import FAULTS
from rewind_client.program import Program
from rewind_client.searching import Answer, Searched, repeated
from rewind_client.sentences import Sentences

from .hunting import Found, Hunt, Row
from .outcomes import Kind, Outcome, Spot, spots
from .schedules import End
from .scripts import Reducer, Script
from .shortening import Short
from .story import Told
from .ways import SECONDS, Search, WayBack

# Where not all is wanted, the report has about so many lines, and of these so many rows and servers, and for what was found a line
# that is empty, three of its own, and some sentences of why.
MOST_LINES = 40
MOST_ROWS = 8
MOST_SERVERS = 3
OWN_LINES = 4
LEAST_WHY = 3
MOST_TOLD = 60
MOST_COMMANDS = 30
MOST_SPOTS = 4
WIDTH = 60
PRINTED = 100
CHANCE = "This is a hunt by chance: what it did not find may still be there."
CERTAIN = "Leaks and outputs are hunted by chance, and may still be there."
SPECIAL = re.compile(r"[\\.^$*+?{}\[\]|()]")


def counted(number: int, what: str) -> str:
    return f"{number} {what}{'' if number == 1 else 's'}"


class Report:
    """Writes the results of a hunt: at most about 40 lines, or all of it."""

    def __init__(self, found: Hunt, program: Program, is_full: bool = False) -> None:
        self.found = found
        self.plan = found.plan
        self.program = program
        self.is_full = is_full
        self.ended = sum(outcome.end is End.ENDED for outcome in found.outcomes)

    # Counts.

    def summary(self) -> Iterator[str]:
        """How many schedules ended in which way, and what they printed."""
        count = counted(len(self.found.outcomes), "schedule")
        yield f"{count} of {self.plan.name}, seed {self.plan.seed}, in {self.found.seconds:.1f} seconds"
        yield ""
        yield from self.table()
        if self.plan.schedulers:
            yield from ["", *self.by_scheduler()]
        remarks = [*self.servers(), *(self.question() if self.found.is_open() else ())]
        if remarks:
            yield from ["", *remarks]

    def table(self) -> Iterator[str]:
        """A row for each way to end, with its number of schedules."""
        rows = list(self.found.rows().items())
        told = rows if self.is_full else rows[:MOST_ROWS]
        cells = [(self.how(row, outcomes), "leak" if row.leaks else "", self.printed(row, outcomes)) for row, outcomes in told]
        width = max(len("ended how"), *(len(how) for how, _, _ in cells))
        yield f"{'times':>6}  {'ended how':{width}}  {'':4}  printed"
        for (how, leaks, lines), (_, outcomes) in zip(cells, told):
            yield f"{len(outcomes):6}  {how:{width}}  {leaks:4}  {lines}".rstrip()
        rest = rows[len(told) :]
        if rest:
            yield f"{sum(len(outcomes) for _, outcomes in rest):6}  in {counted(len(rest), 'way')} more: --full shows them"

    def by_scheduler(self) -> Iterator[str]:
        """A row for each scheduler: how many of its schedules are bad, which is the first, and how many steps they take."""
        width = max(len("scheduler"), *(len(os.path.basename(name)) for name in self.plan.schedulers))
        yield f"{'scheduler':{width}}  schedules    bad  first bad  steps"
        for name in self.plan.schedulers:
            own = [it for it in self.found.outcomes if self.plan.scheduler_of(it.number) == name]
            bad = [at for at, it in enumerate(own, 1) if not self.found.is_well(it)]
            steps = f"{sum(it.steps for it in own) // max(1, len(own)):5}"
            yield f"{os.path.basename(name):{width}}  {len(own):9}  {len(bad):5}  {bad[0] if bad else '-':>9}  {steps}"

    def how(self, row: Row, outcomes: Sequence[Outcome]) -> str:
        """How the schedules of a row ended, and at which lines."""
        if row.end is End.ENDED:
            return "ended, not as expected" if any(map(self.found.is_unexpected, outcomes)) else "ended"
        if row.end is End.UNENDED:
            return "unended"
        lines = self.lines(row.spots)
        at = f" at line{'' if len(lines) == 1 else 's'} {', '.join(map(str, lines[:MOST_SPOTS]))}"
        return (FAULTS.get(row.fault, row.fault) if row.end is End.FAULT else "deadlock") + at * bool(lines)

    def printed(self, row: Row, outcomes: Sequence[Outcome]) -> str:
        """What the schedules of a row printed."""
        consoles = list(dict.fromkeys(outcome.console for outcome in outcomes))
        more = "" if len(consoles) == 1 else f" (in {len(consoles)} orders)"
        if row.end is not End.ENDED:
            more = "" if len(consoles) == 1 else f" (and {counted(len(consoles) - 1, 'other output')})"
        return printed(consoles[0]) + more

    def servers(self) -> Iterator[str]:
        """The goroutines that each schedule leaves at the same line."""
        ended = "" if self.ended == len(self.found.outcomes) else " that ended"
        who = f"All {self.ended} schedules{ended} leave" if self.ended > 1 else f"The only schedule{ended} leaves"
        found = list((self.found.servers or {}).items())
        for spot, number in found if self.is_full else found[:MOST_SERVERS]:
            goroutines = f"{number} goroutines in " if number > 1 else ""
            yield f"{who} {goroutines}{self.spot(spot)}: {'servers?' if number > 1 else 'a server?'} It does not count as bad."
        if len(found) > MOST_SERVERS and not self.is_full:
            yield f"and goroutines at {counted(len(found) - MOST_SERVERS, 'place')} more: --full shows them"

    def question(self) -> Iterator[str]:
        """Asks which output is right, and shows the option that says so."""
        outputs = list(self.found.outputs().values())
        consoles = [outcomes[0].console for outcomes in outputs]
        option = f"--expect {expecting(consoles[0], consoles[1:])}"
        yield f"{len(outputs)} different outputs came. Which is right? Say so: {option} (--each shows the commands to each)"

    # What was found.

    def title(self, found: Found, outcomes: Sequence[Outcome]) -> str:
        """What schedules have against them, and how many they are."""
        of = f"{len(outcomes)} of {len(self.found.outcomes)} schedules"
        if found.kind is Kind.PANIC:
            return f"{FAULTS.get(found.fault, found.fault)} ({found.fault}), {of}, in {self.spots(found.spots)}"
        if found.kind is Kind.DEADLOCK:
            return f"deadlock: no goroutine can go on, {of}, in {self.spots(found.spots)}"
        if found.kind is Kind.UNENDED:
            return f"unended: {of} did not end within {counted(self.plan.most_steps, 'step')} (--steps allows more)"
        if found.kind is Kind.LEAK:
            ended = "" if self.ended == len(self.found.outcomes) else f" of the {self.ended} that ended"
            return f"leak: a goroutine never ends, {of}{ended}, in {self.spots(found.spots)}"
        return f"output: not as --expect says, {of}"

    def output_title(self, outcomes: Sequence[Outcome]) -> str:
        return f"output: {len(outcomes)} of {len(self.found.outcomes)} schedules printed {printed(outcomes[0].console)}"

    def spots(self, spots: Sequence[Spot]) -> str:
        more = f" and {len(spots) - MOST_SPOTS} places more" if len(spots) > MOST_SPOTS else ""
        return "; in ".join(map(self.spot, spots[:MOST_SPOTS])) + more

    def spot(self, spot: Spot) -> str:
        """Where a goroutine stands."""
        functions, line = self.program.outside(spot.functions, spot.line)
        function = functions[0] if functions else "no function"
        if not line:
            return f"{function}, which goes on for ever"
        callers = ", called from " + ", ".join(functions[1:4]) if len(functions) > 1 else ""
        return f"{function} at {self.program.where(line)} ({shortened(self.program.line(line))}){callers}"

    def lines(self, spots: Iterable[Spot]) -> list[int]:
        """The lines of the file at which goroutines stand."""
        shown = {self.program.shown(self.program.outside(spot.functions, spot.line)[1]) for spot in spots}
        return sorted(shown - {0})

    # A script.

    def in_short(self, short: Optional[Short]) -> list[str]:
        """The commands that a person types."""
        if short is None:
            return ["    No commands are shown for a schedule of so many steps: fewer --steps make that possible"]
        return [f"    In short, {counted(len(short.commands), 'command')}: {in_line(short.commands)}"]

    def step_by_step(self, script: Script, told: Sequence[Told]) -> list[str]:
        """A script with what each step does."""
        kept, of_steps = len(script.entries), counted(script.of_steps, "step")
        rest = "the others do not matter" if kept < script.of_steps else "each of them matters"
        head = f"    Step by step, {kept} of the {of_steps} of schedule {script.outcome.number}: {rest}"
        return [head, *("    " + line for line in cut(list(self.steps(told))))]

    def steps(self, told: Sequence[Told]) -> Iterator[str]:
        before, line = "", 0
        for one in told:
            is_run = one.command.startswith("run ")
            times = f" ({one.times} times)" if one.times > 1 else ""
            command = "" if is_run and one.command == before else one.command + ("" if is_run else times)
            place = f"{self.program.where(one.line)}: {shortened(self.program.line(one.line))}" if one.line != line else ""
            yield f"{command:<21} {one.sentence + (times if is_run else ''):<52} {place}".rstrip()
            before, line = one.command, one.line

    def way(self, search: Search, found: Found) -> str:
        """Where to go back behind the commands, or that no such step was found, and why."""
        if search.way:
            return self.way_back(search.way, found)
        if search.tried < search.steps:
            tried = f"Only the last {counted(search.tried, 'step')} of {search.steps} were tried in {SECONDS:.0f} seconds."
            return f"    Where to go back: not found. {tried}"
        return "    Where to go back: no single step back helps. From before each use of a channel, a round robin ended badly again."

    def way_back(self, way: WayBack, found: Found) -> str:
        back = f"'back {way.step}' takes back {counted(way.taken_back, 'step')}"
        still = list(dict.fromkeys(one.kind.value for one in self.found.bad(way.outcome)))
        ends = "ends"
        if still:
            ends = f"ends without this {found.kind.value}, but with another {' and '.join(still)}"
        elif not self.found.is_open():
            ends = "ends well"
        prints = " and prints: " + printed(way.outcome.console) if way.outcome.console else ""
        return f"    Where to go back: {back}; then '{in_line(way.commands)}' {ends}{prints}"

    def most_why(self, told: int) -> int:
        """How many sentences of why have room, where so many things are told."""
        left = MOST_LINES - len(list(self.summary())) - len(["", CHANCE])
        return max(LEAST_WHY, left // max(1, told) - OWN_LINES)

    def why(self, reducer: Reducer, commands: Sequence[str], found: Found, most: int) -> list[str]:
        """Why the program stands as it does behind the commands; of a leak what its goroutines wait for when all have gone on."""
        if found.kind is Kind.OUTPUT:
            return []
        reducer.from_start(commands)
        reducer.now()
        session = reducer.session()
        explanation, sentences = explain(session), Sentences(session)
        if found.kind is Kind.LEAK:
            at = {one.name for one in session.goroutines() if spots([one])[0] in found.spots}
            lines = list(sentences.waits([wait for wait in explanation.waits if wait.goroutine in at]))
        else:
            lines = sentences.all(explanation)
        if len(lines) > most and not self.is_full:
            lines = [*lines[: most - 1], f".. (--full shows {counted(len(lines) - most + 1, 'line')} more)"]
        return ["    " + line for line in lines]


def last_line(searched: Optional[Searched]) -> str:
    """How far the findings go, by what a search of all schedules told."""
    if searched and searched.answer is Answer.NONE_BAD:
        return f"{searched.sentence[:1].upper()}{searched.sentence[1:]}. {CERTAIN}"
    return CHANCE


def by_search(searched: Searched, is_full: bool) -> list[str]:
    """A schedule that only the search has found."""
    told = list(searched.commands) if is_full else [in_line(searched.commands)]
    return [f"found by a search of all schedules: {searched.sentence}", *("    " + line for line in told)]


def expecting(console: tuple[str, ...], others: Sequence[tuple[str, ...]]) -> str:
    """The pattern, as a shell takes it, that an output matches and no other one: a line of it where that is enough."""
    texts = ["\n".join(other) for other in others]
    plain = [SPECIAL.sub(r"\\\g<0>", line) for line in dict.fromkeys(console)]
    candidates = [*plain, *(f"^{line}$" for line in plain)]
    whole = r"\A" + r"\n".join(SPECIAL.sub(r"\\\g<0>", line) for line in console) + r"\Z"
    fitting = (one for one in candidates if one and not any(re.search(one, text, re.MULTILINE) for text in texts))
    return shlex.quote(next(fitting, whole))


def printed(console: tuple[str, ...]) -> str:
    """The lines that were printed, in one line."""
    text = " / ".join(console) or "nothing"
    return text if len(text) <= PRINTED else text[: PRINTED - 2] + ".."


def shortened(text: str) -> str:
    return text if len(text) <= WIDTH else text[: WIDTH - 2] + ".."


def in_line(commands: Sequence[str]) -> str:
    """Commands in one line; the same one over and over is told once."""
    told = repeated(commands)
    return "; ".join(told if len(told) <= MOST_COMMANDS else [*told[:MOST_COMMANDS], ".. (--script FILE keeps all)"])


def cut(lines: list[str]) -> list[str]:
    """Not too many lines."""
    if len(lines) <= MOST_TOLD:
        return lines
    half = MOST_TOLD // 2
    return [*lines[:half], f".. {len(lines) - 2 * half} lines more ..", *lines[-half:]]
