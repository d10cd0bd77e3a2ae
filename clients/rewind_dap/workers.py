"""Steps that workers take on their own, as a movement: it lasts until they have taken all that was granted, or rest."""
from __future__ import annotations

import time

from rewind_client import motion
from rewind_client.motion import StopReason
from rewind_client.replies import State

from .debuggee import Debuggee
from .stops import Motion, Stop, in_words

TICK = 0.02
# Workers that have taken no step for so many seconds rest: no goroutine is ready, or the log is full.
QUIET = 0.5


def work(debuggee: Debuggee) -> Motion:
    """Looks on while the workers take steps."""
    session, before = debuggee.session, debuggee.session.core.kept
    moved_at, wanted = time.monotonic(), before + debuggee.granted
    while session.core.kept < wanted and not session.stopped_by() and time.monotonic() < moved_at + QUIET:
        yield session.core.kept
        time.sleep(TICK)
        if session.refresh():
            moved_at = time.monotonic()
    if session.core.kept >= wanted:
        debuggee.granted = 0
    return rested(debuggee, session.core.kept - before)


def rested(debuggee: Debuggee, taken: int) -> Stop:
    """Why the workers take no more steps."""
    session = debuggee.session
    if session.stopped_by():
        return in_words(session, debuggee.view, motion.end(session))
    if not any(one.state is State.READY for one in session.goroutines()):
        return in_words(session, debuggee.view, motion.Stop(StopReason.DEADLOCK, debuggee.focus))
    return Stop("step", debuggee.focus, f"The workers took {taken} {'step' if taken == 1 else 'steps'}")
