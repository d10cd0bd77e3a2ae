"""Requests that move the program, forward or back."""
from __future__ import annotations


from rewind_client import motion
from rewind_client.frames import first_step_of_frame
from rewind_client.names import step_number, step_owner
from rewind_client.replies import Goroutine

from .arguments import Arguments, BadRequest
from .debuggee import Debuggee
from .handlers import Body, Handler, Handlers
from .looks import one_line, step_name
from .offers import ONE_STEP
from .runs import How, along, backward, forward
from .stops import Stop, end, step_back, taken

INSTRUCTION = "instruction"


class Moves(Handlers):
    """Steps and runs in both directions."""

    def handlers(self) -> dict[str, Handler]:
        return {
            "continue": self.go_on,
            "next": lambda arguments: self.along(self.goroutine(arguments), motion.next_line, leaves=True),
            "stepIn": self.step_in,
            "stepOut": lambda arguments: self.along(self.goroutine(arguments), motion.out_of_frame),
            "stepBack": self.step_back,
            "reverseContinue": self.reverse,
            "restartFrame": self.restart_frame,
            "goto": self.goto,
            "rewind/back": self.back,
            "rewind/redo": self.redo,
        }

    def goroutine(self, arguments: Arguments) -> Goroutine:
        """The goroutine that a request names by its thread, of a program that stands still."""
        return self.adapter.stopped_debuggee().view.goroutine_of(arguments.number("threadId"))

    # Forward.

    def go_on(self, _arguments: Arguments) -> Body:
        self.adapter.begin(forward(self.adapter.stopped_debuggee(), self.adapter.say))
        return {"allThreadsContinued": True}

    def along(self, goroutine: Goroutine, how: How, leaves: bool = False) -> None:
        """Sets a goroutine going; the others run first where it waits."""
        self.adapter.begin(along(self.focused(goroutine), goroutine, self.adapter.say, how, leaves))

    def step_in(self, arguments: Arguments) -> None:
        """One step; the target is a case of the select at which the goroutine stands."""
        clause = arguments.number("targetId", ONE_STEP)
        self.along(self.goroutine(arguments), lambda session, one, lines, hit: motion.some_steps(session, one.name, 1, clause))

    def focused(self, goroutine: Goroutine) -> Debuggee:
        """The program, with a goroutine as the one that the editor looks at."""
        debuggee = self.adapter.stopped_debuggee()
        debuggee.focus = goroutine.name
        return debuggee

    # Back.

    def step_back(self, arguments: Arguments) -> None:
        """A statement back, as a step over goes one forward; or one step."""
        goroutine = self.goroutine(arguments)
        whole = arguments.text("granularity", "statement") != INSTRUCTION
        self.adapter.begin(step_back(self.focused(goroutine).session, goroutine, whole))

    def reverse(self, _arguments: Arguments) -> None:
        self.adapter.begin(backward(self.adapter.stopped_debuggee()))

    def restart_frame(self, arguments: Arguments) -> None:
        """Takes back what a goroutine did in a frame."""
        debuggee = self.adapter.stopped_debuggee()
        place = debuggee.view.place(arguments.number("frameId"))
        goroutine = place.goroutine
        if not goroutine.frames:
            raise BadRequest(f"{goroutine.name} has ended and has no frame")
        first = first_step_of_frame(debuggee.session, goroutine, place.depth)
        if step_number(first) > goroutine.steps:
            self.adapter.stop_at(Stop("restart", goroutine.name, "The start of the frame"))
        else:
            self.take_back(debuggee, "restart", goroutine.name, first)

    def goto(self, arguments: Arguments) -> None:
        """Goes back to a step that `gotoTargets` told."""
        debuggee = self.adapter.stopped_debuggee()
        step = debuggee.targets.get(arguments.number("targetId"))
        if step is None:
            raise BadRequest(f"there is no target {arguments.number('targetId')}")
        self.take_back(debuggee, "goto", step_owner(step), step)

    def take_back(self, debuggee: Debuggee, reason: str, goroutine: str, target: str) -> list[str]:
        """Takes a step back with its consequences, and shows a goroutine."""
        names = debuggee.session.back(target)
        self.adapter.stop_at(taken("Took back", names, goroutine)._replace(reason=reason))
        return names

    # Beyond other debuggers.

    def back(self, arguments: Arguments) -> Body:
        """Takes a step back with its consequences: `step`, or the `target` of a command `back`, or the last of `threadId`."""
        debuggee = self.adapter.stopped_debuggee()
        target = arguments.text("target", "") or step_name(debuggee, arguments)
        return self.answer(debuggee, "Took back", debuggee.session.back(one_line(target)), 0)

    def redo(self, _arguments: Arguments) -> Body:
        """Takes the steps again that were taken back last."""
        debuggee = self.adapter.stopped_debuggee()
        return self.answer(debuggee, "Took again", debuggee.session.redo(), -1)

    def answer(self, debuggee: Debuggee, did: str, names: list[str], shown: int) -> Body:
        """Answers with the steps that went or came; the editor is shown the goroutine of one of them."""
        stop = taken(did, names, step_owner(names[shown]) if names else debuggee.focus)
        self.adapter.stop_at(end(debuggee.session) if debuggee.session.stopped_by() else stop)
        return {"steps": names}
