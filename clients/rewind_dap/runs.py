"""Runs to a breakpoint that is hit, or to where a variable is given a value."""
from __future__ import annotations

from collections.abc import Callable
from typing import TYPE_CHECKING

from rewind_client import motion
from rewind_client.motion import StopReason
from rewind_client.replies import Goroutine
from rewind_client.session import Session
from rewind_client.watches import backward_to_value, forward_to_value

from .stops import Motion, in_words, told

if TYPE_CHECKING:
    from .debuggee import Debuggee

# Writes a line in the console of the editor: a category of the protocol, and the text.
Say = Callable[[str, str], None]
# How one goroutine moves: a movement of the library, told the session, the goroutine, lines, and what hits there.
How = Callable[[Session, Goroutine, motion.Lines, motion.Hit], motion.Motion]


def forward(debuggee: Debuggee, say: Say) -> Motion:
    """Runs all, round robin. A breakpoint whose condition does not hold, or that only writes a message, is passed."""
    session, lines, hit = debuggee.session, debuggee.breakpoints.lines, hits(debuggee, say)
    while True:
        if debuggee.watches:
            movement = forward_to_value(session, lines, debuggee.watched, debuggee.focus)
        else:
            movement = motion.forward(session, lines, debuggee.focus)
        found = yield from movement
        if found.reason is not StopReason.BREAKPOINT or hit(found.goroutine, found.line):
            return in_words(session, debuggee.view, found)


def backward(debuggee: Debuggee) -> Motion:
    """Takes steps back to a breakpoint; conditions do not count there."""
    session, lines = debuggee.session, debuggee.breakpoints.lines
    movement = backward_to_value(session, lines, debuggee.watched) if debuggee.watches else motion.backward(session, lines)
    return in_words(session, debuggee.view, (yield from movement))


def along(debuggee: Debuggee, goroutine: Goroutine, say: Say, how: How, leaves: bool) -> Motion:
    """A movement of one goroutine to a line; where it waits the others run first. Conditions are heeded as by `forward`."""
    session, lines, hit = debuggee.session, debuggee.breakpoints.lines, hits(debuggee, say)
    movement = motion.waited_for(session, goroutine, lines, hit, lambda one: how(session, one, lines, hit), leaves)
    return told(session, debuggee.view, movement)


def hits(debuggee: Debuggee, say: Say) -> motion.Hit:
    """Whether the program stops at a breakpoint to which a goroutine has come; messages are written on the way."""

    def hit(name: str, line: int) -> bool:
        conditions = debuggee.breakpoints.conditions(line)
        if not conditions:
            return True
        goroutine, stops = debuggee.session.goroutine(name), False
        for condition in conditions:
            if condition.holds(debuggee.session, goroutine):
                news = condition.news(line)
                if news:
                    say("important", news)
                if condition.message:
                    say("console", condition.written(debuggee.session, goroutine))
                else:
                    stops = True
        return stops

    return hit
