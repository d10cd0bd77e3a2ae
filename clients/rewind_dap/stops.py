"""Why a program stopped, in the words of the protocol and for the user."""
from __future__ import annotations

from collections.abc import Generator
from typing import AbstractSet, NamedTuple, Optional

from rewind_client import motion
from rewind_client.endings import Ending, fates_of
from rewind_client.errors import RewindError
from rewind_client.explanations import explain
from rewind_client.meanings import DEADLOCK, FAULTS
from rewind_client.motion import StopReason
from rewind_client.replies import Entry, Goroutine, Reason
from rewind_client.sentences import Sentences
from rewind_client.session import Session
from rewind_client.watched import Watched

from .capabilities import Filter
from .view import View

LISTED = 20
# The status with which Go ends after a panic or a deadlock.
FAILED = 2


class Stop(NamedTuple):
    """Why a goroutine stopped: a reason of the protocol, a line of words, more words, a breakpoint's line, a watch, an exception."""

    reason: str
    goroutine: str
    description: str
    text: str = ""
    line: int = 0
    watch: Optional[Watched] = None
    name: str = ""


# A movement in portions, which returns where and why it stopped.
Motion = Generator[int, None, Stop]


def told(session: Session, view: View, movement: motion.Motion) -> Motion:
    """A movement of the library, with its end in words."""
    found = yield from movement
    return in_words(session, view, found)


def in_words(session: Session, view: View, found: motion.Stop) -> Stop:
    name, reason = found.goroutine, found.reason
    if reason in (StopReason.ENDED, StopReason.FAULT):
        return end(session)
    if reason is StopReason.BREAKPOINT:
        before = f", before {found.before}" if found.before else ""
        return Stop("breakpoint", name, f"Breakpoint on line {found.line}{before}", line=found.line)
    if reason in (StopReason.VALUE, StopReason.VALUE_TAKEN_BACK) and found.entry and found.watch:
        return Stop("data breakpoint", name, watch_in_words(session, found.entry, found), watch=found.watch)
    if reason is StopReason.DEADLOCK:
        return stuck(session, name)
    if reason is StopReason.FULL:
        return Stop("pause", name, "The log is full: take steps back to go on")
    if reason is StopReason.MEMORY:
        return Stop("pause", name, "There is no memory for the next step")
    if reason is StopReason.ENTRY:
        return Stop("entry", "g0", "The start of the program")
    return Stop("step", name, f"After {found.entry.step} {found.entry.kind}" if found.entry else "Stopped")


def behind_commands(session: Session, name: str, words: str) -> Stop:
    """Why the program stands behind some commands: that it can go no further, or else the words given."""
    if session.stopped_by():
        return end(session)
    return Stop("step", name, words) if session.ready() else stuck(session, name)


def stuck(session: Session, name: str) -> Stop:
    return Stop("deadlock", name, "Deadlock: no goroutine is ready", deadlock(session))


def deadlock(session: Session) -> str:
    """Who waits for whom; of a log that is long to read, only that `why` tells it."""
    if not session.is_noted():
        return DEADLOCK + "\n'why' tells who waits for whom"
    return "\n".join(Sentences(session).all(explain(session)))


def end(session: Session) -> Stop:
    """The program has ended, or a fault stopped it."""
    found = motion.end(session)
    if found.reason is StopReason.ENDED or found.entry is None:
        return Stop("ended", "g0", "The program has ended; steps can be taken back")
    fault = found.entry.kind.fault
    text = FAULTS.get(fault, fault)
    what = "Panic" if text.startswith("panic") else "Fault"
    return Stop("exception", found.goroutine, f"{what}: {fault}", text, name=fault)


def watch_in_words(session: Session, entry: Entry, found: motion.Stop) -> str:
    """What a step did that is watched; on the way back it was taken back."""
    assert found.watch
    did = found.watch.did(session.name_of, entry.kind.waits)
    return f"Took back {entry.step}, which {did}" if found.reason is StopReason.VALUE_TAKEN_BACK else f"{entry.step} {did}"


def with_filters(session: Session, stop: Stop, filters: AbstractSet[Filter]) -> Stop:
    """A stop as the editor wants it shown: an end of the program as an exception, or as a stop like others."""
    if stop.reason == "exception" and Filter.PANICS not in filters:
        return stop._replace(reason="ended")
    if stop.reason == "deadlock" and Filter.DEADLOCKS not in filters:
        return stop._replace(reason="pause")
    fates, _ = fates_of(session) if stop.reason == "ended" and Filter.LEAKS in filters else ([], [])
    left = [fate for fate in fates if fate.ending is Ending.WAIT]
    if not left:
        return stop
    lines = [f"leak: {'1 goroutine is' if len(left) == 1 else f'{len(left)} goroutines are'} blocked for ever"]
    places = [(fate.goroutine, fate.place.line) for fate in left[:LISTED]]
    lines += [f"{name} at {session.program.at(line)}" for name, line in places]
    return Stop("exception", left[0].goroutine, "Leak: main has returned", "\n".join(lines), name="Leak")


def exit_code(session: Session) -> Optional[int]:
    """The status with which Go would have ended; none where the program can go on, or is not known any more."""
    try:
        if session.core.process.ended is not None:
            return None
        by = session.stopped_by()
        return 0 if by is Reason.ENDED else FAILED if by or not session.ready() else None
    except RewindError:
        return None


def step_back(session: Session, goroutine: Goroutine, whole: bool) -> Motion:
    """Takes the last step of the goroutine back, or the whole statement to which it belongs, with all that depends on it."""
    yield from ()
    if goroutine.steps == 0:
        words = f"{goroutine.name} has taken no step; 'back go {goroutine.name}' takes its start back"
        return Stop("step", goroutine.name, words if goroutine.name != "g0" else "The start of the program")
    step = motion.line_before(session, goroutine) if whole else goroutine.last_step
    return taken("Took back", session.back(step), goroutine.name)


def taken(did: str, names: list[str], goroutine: str) -> Stop:
    """Steps were taken back or again, in words: all of them where they are few, else how many more there are."""
    number = f"{did} {len(names)} {'step' if len(names) == 1 else 'steps'}"
    listed = " ".join(names[:LISTED]) + (" .." if len(names) > LISTED else "")
    more = f" and {len(names) - 1} more" if len(names) > 1 else ""
    return Stop("step", goroutine, f"{did} {' '.join(names[:1])}{more}", f"{number}: {listed}")


def not_taken(why: RewindError, goroutine: str) -> Stop:
    return Stop("pause", goroutine, f"No step was taken: {why}")
