"""Movements through a program, in portions, so that they can be stopped between them.

Each is a generator that yields between two portions how many steps it took, and returns where and why it stopped. What it did
before it is left stays done.
"""
from __future__ import annotations

from bisect import bisect_right
from collections.abc import Callable, Generator
from enum import Enum
from itertools import count, islice
from typing import AbstractSet, NamedTuple, Optional

from .names import name_order, step_owner
from .replies import Entry, Goroutine, KindWord, Ran, Reason, State
from .scout import last_step_at
from .session import Session
from .watched import Watched

RUN_PORTION = 50_000
STEP_PORTION = 100
MAX_FRAMES = 1000
# So many steps are looked at for the beginning of a statement.
MOST_LOOKED_AT = 100_000
# Goroutines that are asked for in one go, until one is ready.
ASKED = 64
# What a step of a kind adds to the frames of its goroutine.
FRAMES = {KindWord.CALL: 1, KindWord.RETURN: -1, KindWord.EXIT: -1}

# Whether a breakpoint on a line is hit by a goroutine that comes there.
Hit = Callable[[str, int], bool]
# The lines with breakpoints; they may change while the program runs.
Lines = Callable[[], AbstractSet[int]]


class StopReason(Enum):
    """Why a movement stopped."""

    STEP = "step"
    BREAKPOINT = "breakpoint"
    DEADLOCK = "deadlock"
    FAULT = "fault"
    ENDED = "ended"
    WAITS = "waits"
    VALUE = "value"
    VALUE_TAKEN_BACK = "value taken back"
    COUNT = "count"
    ENTRY = "entry"
    FULL = "full"
    MEMORY = "memory"


class Stop(NamedTuple):
    """Why a movement stopped: the goroutine to look at, its last step, a breakpoint's line, a run, a step taken back, a watch."""

    reason: StopReason
    goroutine: str
    entry: Optional[Entry] = None
    line: int = 0
    ran: Optional[Ran] = None
    before: str = ""
    watch: Optional[Watched] = None


Motion = Generator[int, None, Stop]
STOPS = {
    Reason.ENDED: StopReason.ENDED,
    Reason.FAULT: StopReason.FAULT,
    Reason.STUCK: StopReason.DEADLOCK,
    Reason.COUNT: StopReason.COUNT,
    Reason.FULL: StopReason.FULL,
    Reason.MEMORY: StopReason.MEMORY,
    Reason.BREAK: StopReason.BREAKPOINT,
}


def forward(session: Session, lines: Lines, goroutine: str, most: Optional[int] = None) -> Motion:
    """Runs all goroutines, round robin, to the next breakpoint, or as far as it goes, but no more than some steps.

    A run looks for breakpoints before each of its steps but the first. So a portion begins with the last step of the one
    before, which is taken back first: else a breakpoint between two portions would be passed.
    """
    taken, again = 0, 0
    while True:
        left = RUN_PORTION if most is None else min(RUN_PORTION, most - taken)
        run = session.run(left + again)
        taken += run.taken - again
        if run.reason is not Reason.COUNT or taken == most:
            return stop_of_run(session, Ran(taken, run.reason, run.line), goroutine)
        yield taken
        again = 1 if lines() else 0
        if again:
            session.undo()


def stop_of_run(session: Session, run: Ran, goroutine: str) -> Stop:
    """Where a run stopped; a fault and the end of the program are shown at the goroutine of the last step."""
    if run.reason is Reason.BREAK:
        return Stop(StopReason.BREAKPOINT, next_in_turn(session), line=run.line, ran=run)
    if run.reason in (Reason.ENDED, Reason.FAULT):
        return end(session)._replace(ran=run)
    return Stop(STOPS[run.reason], goroutine, ran=run)


def next_in_turn(session: Session) -> str:
    """The goroutine whose turn it is after a run: the first that is ready behind the one of the last step."""
    names, last = session.goroutine_names(), name_order(step_owner(session.entry(-1).step))
    first = bisect_right([name_order(name) for name in names], last)
    turns = names[first:] + names[:first]
    for at in range(0, len(turns), ASKED):
        for one in session.goroutines(turns[at : at + ASKED]):
            if one.state is State.READY:
                return one.name
    return "g0"


def end(session: Session) -> Stop:
    """The program has ended, or a fault stopped it: the last step of the log tells which."""
    last = session.entry(-1)
    reason = StopReason.FAULT if last.kind.word is KindWord.FAULT else StopReason.ENDED
    return Stop(reason, step_owner(last.step), last)


def some_steps(session: Session, goroutine: str, times: int, clause: int = 0) -> Motion:
    """Steps of one goroutine, until one begins to wait or ends the program."""
    for number in range(1, times + 1):
        entry = session.step(goroutine, clause)
        if session.stopped_by():
            return end(session)
        if entry.kind.waits or number == times:
            break
        if number % STEP_PORTION == 0:
            yield number
    return Stop(StopReason.WAITS if entry.kind.waits else StopReason.STEP, goroutine, entry)


def always(_goroutine: str, _line: int) -> bool:
    """Each breakpoint is hit."""
    return True


def through(
    session: Session, start: Goroutine, lines: Lines, hit: Hit, is_there: Callable[[int, int], bool], deepest: int
) -> Motion:
    """Steps of one goroutine until it is where it shall be, or leaves its frame, waits, is done, or hits a breakpoint.

    `is_there` is told how many frames deeper it stands, and its line. Deeper than `deepest` it is not there.
    """
    depth = 0
    for number in count(1):
        entry = session.step(start.name)
        if session.stopped_by():
            return end(session)
        depth += FRAMES.get(entry.kind.word, 0)
        if entry.kind.waits:
            return Stop(StopReason.WAITS, start.name, entry)
        if depth < 0:
            return Stop(StopReason.STEP, start.name, entry)
        if depth <= deepest or lines():
            shown = session.goroutine(start.name)
            line = shown.line if shown else 0
            if depth <= deepest and is_there(depth, line):
                return Stop(StopReason.STEP, start.name, entry, line)
            if (depth > 0 or line != start.line) and line in lines() and hit(start.name, line):
                return Stop(StopReason.BREAKPOINT, start.name, entry, line)
        if number % STEP_PORTION == 0:
            yield number
    raise AssertionError("count has no end")


def next_line(session: Session, start: Goroutine, lines: Lines, hit: Hit = always) -> Motion:
    """Goes on to another line of the frame; frames that it calls are passed, but for breakpoints in them."""
    return through(session, start, lines, hit, lambda depth, line: line != start.line, deepest=0)


def out_of_frame(session: Session, start: Goroutine, lines: Lines, hit: Hit = always) -> Motion:
    """Goes on until the frame is left."""
    return through(session, start, lines, hit, lambda depth, line: False, deepest=-1)


def until_line(session: Session, start: Goroutine, lines: Lines, wanted: int, hit: Hit = always) -> Motion:
    """Goes on to a line, in the frame or in those that it calls."""
    return through(session, start, lines, hit, lambda depth, line: line == wanted, deepest=MAX_FRAMES)


def waited_for(
    session: Session, start: Goroutine, lines: Lines, hit: Hit, go_on: Callable[[Goroutine], Motion], leaves: bool
) -> Motion:
    """A movement of a goroutine; where it waits the others run round robin first, until it can go on or they stop.

    Where `leaves` holds, it is over when the wait itself has led to another line.
    """
    if start.state is not State.WAITING or session.stopped_by():
        return (yield from go_on(start))
    stop = yield from others(session, start, lines, hit)
    if stop is not None:
        return stop
    shown = session.goroutine(start.name)
    assert shown is not None
    if leaves and shown.line != start.line:
        return Stop(StopReason.STEP, start.name, session.entry(-1), shown.line)
    return (yield from go_on(shown._replace(line=start.line)))


def others(session: Session, waiting: Goroutine, lines: Lines, hit: Hit = always) -> Generator[int, None, Optional[Stop]]:
    """Runs the others round robin until a goroutine that waits could take a step; where they stop before that, the stop.

    The portions grow; where the goroutine has moved in one, what came after it could is taken back.
    """
    taken, again, portion = 0, 0, 1
    while True:
        if again:
            session.undo()
        before = session.core.kept
        run = session.run(portion + again)
        shown = session.goroutine(waiting.name)
        if shown is not None and shown.steps > waiting.steps:
            steps = enumerate(session.facts.tail(session.length() - before), before)
            session.cut(next(at for at, fact in steps if fact.owner == waiting.name))
            return None
        taken += run.taken - again
        if run.reason is not Reason.COUNT:
            stop = stop_of_run(session, Ran(taken, run.reason, run.line), waiting.name)
            if stop.reason is not StopReason.BREAKPOINT or hit(stop.goroutine, stop.line):
                return stop
        if shown is not None and shown.state is State.READY:
            return None
        yield taken
        again = 1 if lines() and run.reason is Reason.COUNT else 0
        portion = min(2 * portion, RUN_PORTION)


def backward(session: Session, lines: Lines) -> Motion:
    """Takes back all steps from the last one of a statement with a breakpoint on, or all there are.

    Nothing is taken back before that step is found.
    """
    return back_to(session, (yield from last_step_at(session, lines())) if lines() else -1)


def back_to(session: Session, place: int) -> Stop:
    """Takes back the step at a place of the log, which has a breakpoint, and those behind it; all where the place is -1."""
    if place < 0:
        session.cut(0)
        return Stop(StopReason.ENTRY, "g0")
    step = session.entry(place).step
    session.cut(place)
    shown = session.goroutine(step_owner(step))
    return Stop(StopReason.BREAKPOINT, step_owner(step), line=shown.line if shown else 0, before=step)


def line_before(session: Session, goroutine: Goroutine) -> str:
    """The step with which a goroutine began the line before the one where it stands; an empty text where it has taken none.

    A line that it has begun and not ended counts as the line before. Where the steps on that line are more than its statements
    have tokens, they are a loop, of which only the last step counts; so it is where the goroutine has not moved for long.
    """
    widths, depth, found, there, count = session.program.widths, 0 if goroutine.frames else -1, "", (0, 0), 0
    for fact in islice(session.facts.backward(), MOST_LOOKED_AT):
        if fact.owner != goroutine.name:
            continue
        depth -= FRAMES.get(fact.kind.word, 0)
        if depth > 0:
            continue
        if found and (depth, fact.line) != there:
            break
        found, there, count = fact.step, (depth, fact.line), count + 1
        if count > widths.get(fact.line, 0) + 1:
            return goroutine.last_step
    return found or (goroutine.last_step if goroutine.steps else "")


def last_at_line(session: Session, goroutine: str, line: int) -> str:
    """The step with which a goroutine last began a line; an empty text where it never came there."""
    found = ""
    for fact in reversed(session.noted()):
        if fact.owner != goroutine:
            continue
        if fact.line == line:
            found = fact.step
        elif found:
            break
    return found
