"""What an editor is told without asking: printed lines, goroutines that came and went, and a file that has changed."""
from __future__ import annotations

import time
from typing import TYPE_CHECKING, Any

from rewind_client.core import Refused
from rewind_client.errors import RewindError
from rewind_client.prints import printing_lines
from rewind_client.replies import State

from .debuggee import Debuggee
from .launching import described
from .told import changes_in_words, pieces

if TYPE_CHECKING:
    from .adapter import Adapter

CHANGED = (
    "%s has changed since the session began. Lines and breakpoints are those of the text that runs: restart to take the file as"
    " it is now."
)


def tell_output(adapter: Adapter, debuggee: Debuggee) -> None:
    """Tells the lines that were printed since it was last told, and those that no longer are."""
    debuggee.told = time.monotonic()
    if debuggee.printed_at == debuggee.session.version or not debuggee.session.program.printed_width():
        return
    before = debuggee.printed
    try:
        debuggee.printed = debuggee.session.core.console()
    except Refused as refusal:
        adapter.say("stderr", f"What is printed cannot be told: {refusal}")
    debuggee.printed_at = debuggee.session.version
    for category, text in changes_in_words(before, debuggee.printed):
        if category == "stdout":
            tell_printed(adapter, debuggee, text.split("\n"))
        else:
            adapter.say(category, text)


def tell_printed(adapter: Adapter, debuggee: Debuggee, lines: list[str]) -> None:
    """Tells printed lines, each with the place of its statement where that is known."""
    places = statements_of(debuggee)[-len(lines) :] or [0] * len(lines)
    for piece in pieces(lines, places):
        body: dict[str, Any] = {"category": "stdout", "output": piece.text}
        if piece.line:
            body.update({"source": described(debuggee.launch.path), "line": piece.line + debuggee.first_line - 1})
        adapter.event("output", body)


def statements_of(debuggee: Debuggee) -> list[int]:
    """The line of the statement of each printed line; none where they are not all known."""
    try:
        found = printing_lines(debuggee.session)
    except RewindError:
        # The next question tells so.
        return []
    return found if len(found) == len(debuggee.printed) else []


def tell_threads(adapter: Adapter, debuggee: Debuggee) -> None:
    """Tells which goroutines came into being or live again, and which are done or were taken back."""
    try:
        listed = debuggee.view.listed(debuggee.focus)
        now = {one.name for one in debuggee.session.goroutines(listed) if one.state is not State.DONE}
    except Refused:
        return
    for name in [name for name in listed if name in now - debuggee.alive]:
        tell_thread(adapter, debuggee, "started", name)
    for name in sorted(debuggee.alive - now, key=debuggee.view.thread_number):
        tell_thread(adapter, debuggee, "exited", name)
    debuggee.alive = now


def tell_thread(adapter: Adapter, debuggee: Debuggee, reason: str, name: str) -> None:
    adapter.event("thread", {"reason": reason, "threadId": debuggee.view.thread_number(name)})


def warn_of_change(adapter: Adapter, debuggee: Debuggee) -> None:
    """Says once that the file has changed."""
    source = debuggee.session.source
    if source is not None and not debuggee.has_warned and source.has_changed():
        debuggee.has_warned = True
        adapter.say("important", CHANGED % debuggee.launch.path)
