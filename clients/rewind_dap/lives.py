"""Requests that begin a program, begin it anew, and end it."""
from __future__ import annotations


from rewind_client.carried import CarriedProgram, left_of
from rewind_client.errors import RewindError, SourceRefused
from rewind_client.program import read_program
from rewind_client.refusals import explain_refusal
from rewind_client.session import Session

from .arguments import Arguments, BadRequest
from .debuggee import Debuggee
from .handlers import Handler, Handlers
from .launching import Launch, described, launch_of, start
from .runs import forward
from .stops import Stop


class Lives(Handlers):
    """The life of a program under the debugger."""

    def handlers(self) -> dict[str, Handler]:
        return {
            "launch": self.launch,
            "attach": self.attach,
            "configurationDone": self.configuration_done,
            "restart": self.restart,
            "terminate": self.terminate,
            "disconnect": self.disconnect,
        }

    def launch(self, arguments: Arguments) -> None:
        adapter = self.adapter
        if adapter.debuggee is not None:
            raise BadRequest("a program was launched before")
        launch = launch_of(arguments, adapter.rewind)
        session = self.session_of(launch)
        places = (adapter.first_line, adapter.first_column)
        adapter.debuggee = Debuggee(launch, session, *places, lambda body: adapter.event("breakpoint", body))
        adapter.later.append(lambda: adapter.event("initialized"))

    def session_of(self, launch: Launch) -> Session:
        """A session on the program of a launch; of a refused source the console gets the line with a mark besides."""
        try:
            session = start(launch, self.adapter.transport.closed.is_set, self.adapter.journal)
            if isinstance(session.program, CarriedProgram):
                self.adapter.say("console", session.program.told())
            return session
        except SourceRefused as refusal:
            raise self.told_refusal(launch.path, refusal) from None

    def told_refusal(self, path: str, refusal: SourceRefused) -> RewindError:
        """Tells in the console what is wrong with a source; the sentence for the response, with what to write instead."""
        try:
            found = explain_refusal(read_program(path).text, refusal.code, refusal.line, refusal.column)
        except RewindError:
            self.adapter.say("stderr", str(refusal))
            return refusal
        shift = (self.adapter.first_line - 1, self.adapter.first_column - 1)
        place = {"source": described(path), "line": refusal.line + shift[0], "column": refusal.column + shift[1]}
        self.adapter.say("stderr", f"{found.text(path)} ({refusal.code})", place if refusal.line else None)
        for line in left_of(refusal):
            self.adapter.say("stderr", line)
        sentence = found.text(path).split("\n")[0]
        instead = f"; write instead: {found.instead}" if found.instead else ""
        return BadRequest(f"{sentence}{instead} ({refusal.code})")

    def attach(self, _arguments: Arguments) -> None:
        raise BadRequest("Rewind runs programs itself and attaches to none: use launch")

    def configuration_done(self, _arguments: Arguments) -> None:
        self.set_off(self.adapter.stopped_debuggee())

    def set_off(self, debuggee: Debuggee) -> None:
        if debuggee.launch.stop_on_entry:
            self.adapter.stop_at(Stop("entry", "g0", "The start of the program"))
        else:
            self.adapter.begin(forward(debuggee, self.adapter.say))

    def restart(self, arguments: Arguments) -> None:
        """Begins the program anew, from the file as it is now, with the breakpoints as they are."""
        debuggee = self.adapter.any_debuggee()
        given = arguments.object("arguments")
        launch = launch_of(given, self.adapter.rewind) if given.has("program") else debuggee.launch
        session = self.session_of(launch)
        self.adapter.halt()
        debuggee.session.end()
        debuggee.begin_anew(launch, session)
        self.set_off(debuggee)

    def terminate(self, _arguments: Arguments) -> None:
        self.adapter.any_debuggee()
        self.adapter.later.append(self.adapter.gone)

    def disconnect(self, _arguments: Arguments) -> None:
        self.adapter.end_program()
        self.adapter.finished = True
