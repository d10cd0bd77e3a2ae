"""Requests that ask what one could do next: cases of a select, lines to go back to, words of the console, variables to watch."""
from __future__ import annotations

import re

from rewind_client.motion import last_at_line
from rewind_client.names import CHANNEL, is_channel
from rewind_client.replies import State

from .arguments import Arguments
from .debuggee import Debuggee
from .handlers import Body, Handler, Handlers


MAX_OFFERS = 50
# A channel as lists and the console name it: `jobs (g0/c1)`, or `g0/c1`.
CHANNEL_NAME = re.compile(rf"(?:^|\()({CHANNEL.pattern})\)?$")
# The target of a step that leaves the choice to Rewind: the first case that can proceed.
ONE_STEP = 0


class Offers(Handlers):
    """What an editor shows in menus."""

    def handlers(self) -> dict[str, Handler]:
        return {
            "stepInTargets": self.step_in_targets,
            "gotoTargets": self.goto_targets,
            "dataBreakpointInfo": self.data_breakpoint_info,
        }

    def step_in_targets(self, arguments: Arguments) -> Body:
        """The cases of a select that can be taken now; the number of a target is that of its case."""
        debuggee = self.adapter.stopped_debuggee()
        goroutine = debuggee.view.place(arguments.number("frameId")).goroutine
        clauses = debuggee.session.program.selects.get(goroutine.line, [])
        ready: list[int] = []
        if clauses and goroutine.state is State.READY and not debuggee.session.stopped_by():
            ready = debuggee.session.ready_clauses(goroutine.name, len(clauses))
        targets: list[Body] = [{"id": ONE_STEP, "label": "one step"}]
        for number in ready:
            clause = clauses[number - 1]
            label = f"case {number}: {clause.text.replace('case ', '', 1)}"
            targets.append({"id": number, "label": label, "line": clause.line + debuggee.first_line - 1})
        return {"targets": targets}

    def goto_targets(self, arguments: Arguments) -> Body:
        """The steps with which goroutines last began a line, the one that is looked at first."""
        debuggee = self.adapter.stopped_debuggee()
        path = arguments.object("source").text("path", "")
        line = debuggee.session.program.statement_at(arguments.number("line") - debuggee.first_line + 1)
        if line is None or not debuggee.breakpoints.is_here(path):
            return {"targets": []}
        were_there = dict.fromkeys(fact.owner for fact in debuggee.session.noted() if fact.line == line)
        names = sorted(were_there, key=lambda name: name != debuggee.focus)[:MAX_OFFERS]
        return {"targets": [self.goto_target(debuggee, name, line) for name in names]}

    def goto_target(self, debuggee: Debuggee, name: str, line: int) -> Body:
        step, number = last_at_line(debuggee.session, name, line), debuggee.view.next_number()
        debuggee.targets[number] = step
        return {"id": number, "label": f"back to {name} before {step}", "line": line + debuggee.first_line - 1}

    def data_breakpoint_info(self, arguments: Arguments) -> Body:
        """Whether one can watch a variable of a frame or of a list of variables, or a channel that is shown by its name."""
        view = self.adapter.stopped_debuggee().view
        name = arguments.text("name")
        channel = CHANNEL_NAME.search(name)
        if channel:
            return self.of_channel(channel[1])
        if arguments.has("variablesReference"):
            number = arguments.number("variablesReference")
            goroutine, bodies = view.owners.get(number, ""), view.current().children_of(number)
        else:
            number = arguments.number("frameId")
            goroutine, bodies = view.place(number).goroutine.name, view.of_frame(number)
        value = next((str(body["value"]).split(" ")[0] for body in bodies if body["name"] == name), "")
        if is_channel(value):
            return self.of_channel(value)
        name = name.split(" ")[0]
        if not goroutine or not name.isidentifier():
            return {"dataId": None, "description": "only variables of a frame and channels can be watched"}
        words = f"{name} of {goroutine} is given a value"
        return {"dataId": f"{goroutine} {name}", "description": words, "accessTypes": ["write"], "canPersist": False}

    def of_channel(self, channel: str) -> Body:
        """A write is a send, and a read is a receive."""
        words = f"{self.adapter.stopped_debuggee().session.name_of(channel)}: a write is a send, a read is a receive"
        return {"dataId": channel, "description": words, "accessTypes": ["read", "write", "readWrite"], "canPersist": False}
