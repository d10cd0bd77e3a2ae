"""The adapter: requests of an editor in, responses and events out."""
from __future__ import annotations

import time
from collections.abc import Callable
from typing import AbstractSet, Any, Optional, cast

from rewind_client.core import Refused
from rewind_client.errors import Cancelled, ProcessError, RewindError

from .arguments import Arguments, BadRequest
from .capabilities import CAPABILITIES, DEFAULT, Filter
from .console import Console
from .debuggee import Debuggee
from .handlers import Body, Handler
from .lives import Lives
from .looks import Looks
from .moves import Moves
from .offers import Offers
from .stops import Motion, Stop, exit_code, not_taken, with_filters
from .telling import tell_output, tell_threads, warn_of_change
from .transport import Closed, Malformed, Transport


SECONDS_BETWEEN_OUTPUTS = 1.0
TROUBLE = frozenset(("exception", "deadlock"))


class Adapter:
    """Answers the requests of one editor until it disconnects."""

    def __init__(self, transport: Transport, rewind: Optional[str], journal: Callable[[str], None]) -> None:
        """`rewind` is the program to use, where the command line names one; `journal` is told each command for it."""
        self.transport = transport
        self.rewind = rewind
        self.journal = journal
        self.first_line = 1
        self.first_column = 1
        self.greeted = False
        self.finished = False
        self.filters: AbstractSet[Filter] = DEFAULT
        self.debuggee: Optional[Debuggee] = None
        self.motion: Optional[Motion] = None
        self.later: list[Callable[[], None]] = []
        self.handlers: dict[str, Handler] = {
            "initialize": self.initialize,
            "pause": self.pause,
            **Lives(self).handlers(),
            **Looks(self).handlers(),
            **Offers(self).handlers(),
            **Moves(self).handlers(),
            **Console(self).handlers(),
        }

    # Messages.

    def serve(self) -> None:
        """Answers until the editor disconnects or closes its end; the program under the debugger is ended then."""
        try:
            while not self.finished:
                message = self.transport.next_message(wait=self.motion is None)
                if isinstance(message, Closed):
                    break
                if message is None:
                    self.guarded(self.advance)
                elif isinstance(message, Malformed):
                    self.say("stderr", f"This message was dropped: {message.reason}")
                else:
                    self.answer(message)
        except Cancelled:
            pass
        finally:
            self.end_program()

    def answer(self, message: Body) -> None:
        """Answers one message, and then does what comes after the answer."""
        command = message.get("command")
        if message.get("type") != "request" or not isinstance(command, str):
            self.say("stderr", "This message was dropped: it is no request with a command")
            return
        seq = message.get("seq")
        response: Body = {"type": "response", "request_seq": seq if isinstance(seq, int) else 0, "command": command}
        self.later = []
        try:
            body = self.body_for(command, message.get("arguments"))
            self.transport.send({**response, "success": True, **({"body": body} if body is not None else {})})
        except Cancelled:
            raise
        except RewindError as fault:
            self.refuse(response, str(fault))
            self.see_lost()
        for action in self.later:
            action()

    def body_for(self, command: str, arguments: Any) -> Optional[Body]:
        handler = self.handlers.get(command)
        if handler is None:
            raise BadRequest(f"there is no request '{command[:80]}' here")
        if not self.greeted and command not in ("initialize", "disconnect"):
            raise BadRequest("'initialize' comes first")
        return handler(Arguments(arguments))

    def refuse(self, response: Body, why: str) -> None:
        error = {"id": 1, "format": why.replace("{", "(").replace("}", ")"), "showUser": True}
        self.transport.send({**response, "success": False, "message": why, "body": {"error": error}})

    def event(self, name: str, body: Optional[Body] = None) -> None:
        self.transport.send({"type": "event", "event": name, **({"body": body} if body is not None else {})})

    def say(self, category: str, text: str, more: Optional[Body] = None) -> None:
        """A line, or several, in the console of the editor."""
        self.event("output", {"category": category, "output": text + "\n", **(more or {})})

    # The program under the debugger.

    def initialize(self, arguments: Arguments) -> Body:
        if self.greeted:
            raise BadRequest("'initialize' was sent before")
        if arguments.text("pathFormat", "path") != "path":
            raise BadRequest("sources are named by paths alone")
        self.first_line = 1 if arguments.flag("linesStartAt1", True) else 0
        self.first_column = 1 if arguments.flag("columnsStartAt1", True) else 0
        self.greeted = True
        return CAPABILITIES

    def any_debuggee(self) -> Debuggee:
        if self.debuggee is None:
            raise BadRequest("no program runs under the debugger")
        return self.debuggee

    def stopped_debuggee(self) -> Debuggee:
        if self.motion is not None:
            raise BadRequest("the program runs: pause it first")
        return self.any_debuggee()

    def see_lost(self) -> None:
        """Ends the program, and tells the editor why, where Rewind itself is gone."""
        why = self.debuggee.session.core.process.ended if self.debuggee else None
        if why is not None:
            self.say("stderr", why)
            self.gone()

    def gone(self) -> None:
        """Ends the program under the debugger, and tells the editor; with which status Go would have ended, if it has come to an end."""
        code = exit_code(self.debuggee.session) if self.debuggee else None
        self.end_program()
        if code is not None:
            self.event("exited", {"exitCode": code})
        self.event("terminated")

    def end_program(self) -> None:
        self.motion = None
        if self.debuggee is not None:
            self.debuggee.session.end()
            self.debuggee = None

    # Movement.

    def begin(self, movement: Motion) -> None:
        """Sets the program going, once the request is answered."""
        self.motion = movement

    def tell_continued(self, debuggee: Debuggee) -> None:
        """Tells, once the request is answered, that the program runs, where the request itself does not say so."""
        body = {"threadId": debuggee.view.thread_number(debuggee.focus), "allThreadsContinued": True}
        self.later.append(lambda: self.event("continued", body))

    def halt(self) -> None:
        """Leaves the movement that is under way, if there is one; what it did stays done."""
        if self.motion is not None:
            self.motion.close()
        self.motion = None
        if self.debuggee is not None:
            self.debuggee.rest()

    def stop_at(self, stop: Stop) -> None:
        """Tells a stop as soon as the request is answered."""
        self.later.append(lambda: self.guarded(lambda: self.stopped(stop)))

    def guarded(self, action: Callable[[], None]) -> None:
        """Does what comes without a request, and tells the editor where Rewind is gone."""
        try:
            action()
        except ProcessError:
            self.see_lost()

    def advance(self) -> None:
        """A portion of the movement under way."""
        stop = self.portion(self.motion) if self.motion else None
        if stop is not None:
            self.stopped(stop)
        elif time.monotonic() > self.any_debuggee().told + SECONDS_BETWEEN_OUTPUTS:
            tell_output(self, self.any_debuggee())

    def portion(self, movement: Motion) -> Optional[Stop]:
        """A portion of the movement, and where it stopped, if it did."""
        try:
            next(movement)
        except StopIteration as stop:
            return cast(Stop, stop.value)
        except (Refused, ProcessError) as fault:
            debuggee = self.any_debuggee()
            if debuggee.session.core.process.ended is not None:
                raise
            return not_taken(fault, debuggee.focus)
        return None

    def pause(self, _arguments: Arguments) -> None:
        debuggee = self.any_debuggee()
        self.halt()
        self.stop_at(Stop("pause", debuggee.focus, "Paused"))

    def stopped(self, stop: Stop) -> None:
        """Tells the editor where and why the program stopped, and what was printed."""
        self.motion = None
        debuggee = self.any_debuggee()
        stop = with_filters(debuggee.session, stop, self.filters)
        debuggee.focus = stop.goroutine
        debuggee.fault = stop if stop.reason == "exception" else None
        tell_output(self, debuggee)
        if stop.text:
            self.say("stderr" if stop.reason in TROUBLE else "console", stop.text)
        if debuggee.launch.no_debug:
            self.say("console", stop.description)
            self.gone()
            return
        warn_of_change(self, debuggee)
        tell_threads(self, debuggee)
        self.event("stopped", self.stop_body(debuggee, stop))

    def stop_body(self, debuggee: Debuggee, stop: Stop) -> Body:
        body: Body = {"reason": stop.reason, "description": stop.description}
        body["threadId"] = debuggee.view.thread_number(stop.goroutine)
        body["allThreadsStopped"] = True
        if stop.reason in TROUBLE:
            body["text"] = stop.text.split("\n")[0]
        if stop.line in debuggee.breakpoints.lines():
            body["hitBreakpointIds"] = debuggee.breakpoints.numbers(stop.line)
        if stop.watch in debuggee.watches:
            body["hitBreakpointIds"] = [debuggee.watches[stop.watch]]
        return body
