"""The debug console: commands of Rewind, words of the shell, and values."""
from __future__ import annotations

from typing import TYPE_CHECKING, Optional

from rewind_client.breakpoints import place_of
from rewind_client.core import MOVING, with_plain_blanks, words_of
from rewind_client.names import is_channel, step_owner
from rewind_client.replies import Reply, steps_named
from rewind_shell.completing import Completing
from rewind_shell.words import BY_NAME, hint, meant_words

from .answer import Answer
from .arguments import Arguments, BadRequest
from .conditions import in_frame
from .debuggee import Debuggee
from .handlers import Body, Handler, Handlers
from .looks import one_line
from .stops import Stop, end
from .words import Words
from .workers import work

if TYPE_CHECKING:
    from .adapter import Adapter


class Console(Handlers):
    """What a user types into an editor."""

    def __init__(self, adapter: Adapter) -> None:
        super().__init__(adapter)
        self.words = Words(adapter)

    def handlers(self) -> dict[str, Handler]:
        return {"evaluate": self.evaluate, "completions": self.completions}

    def evaluate(self, arguments: Arguments) -> Body:
        """In the console a command or a word of the shell; elsewhere, and where it is neither, a value.

        An editor that names no context means its console.
        """
        text, frame = with_plain_blanks(arguments.text("expression")), arguments.number("frameId", 0)
        if arguments.text("context", "repl") == "repl":
            return self.typed(one_line(text), frame)
        return self.value(self.adapter.stopped_debuggee(), text.strip(), frame)

    def completions(self, arguments: Arguments) -> Body:
        """What the last word before the cursor may become."""
        debuggee = self.adapter.any_debuggee()
        first = self.adapter.first_column
        before = arguments.text("text")[: max(arguments.number("column") - first, 0)]
        desk = Answer(debuggee, self.chosen(debuggee, arguments.number("frameId", 0)))
        last = before.split(" ")[-1]
        place = {"start": len(before) - len(last) + first, "length": len(last)}
        return {"targets": [{"label": text, **place} for text in Completing(desk).of(before)]}

    def chosen(self, debuggee: Debuggee, frame: int) -> str:
        """The goroutine that a word is about: that of the frame, else the one that is looked at."""
        goroutine = debuggee.view.goroutine_at(frame)
        return goroutine.name if goroutine else debuggee.focus

    # What is typed.

    def typed(self, text: str, frame: int) -> Body:
        words = words_of(text)
        moving = words[:1] and words[0] in MOVING
        debuggee = self.adapter.stopped_debuggee() if moving else self.adapter.any_debuggee()
        if not words:
            return said("")
        if words[0] == "break" and len(words) == 2:
            return self.set_breakpoint(debuggee, words[1])
        reply = debuggee.session.ask(text)
        if reply.name:
            if reply.is_ok:
                self.after_command(debuggee, words, reply)
            return said("\n".join(reply.lines))
        return self.word(debuggee, words, frame) or self.not_understood(debuggee, text, words, frame, reply)

    def word(self, debuggee: Debuggee, words: list[str], frame: int) -> Optional[Body]:
        """The answer to a word of the shell: in full, or by its abbreviation where no variable has that name."""
        meant = meant_words(words)
        name = meant[0]
        if name not in BY_NAME or (words[0] not in BY_NAME and self.has_value(debuggee, " ".join(words), frame)):
            return None
        answer = self.words.obey(name, meant[1:], self.chosen(debuggee, frame))
        if answer is not None:
            return said(answer)
        return self.typed(" ".join(meant), frame) if words[0] != name else None

    def not_understood(self, debuggee: Debuggee, text: str, words: list[str], frame: int, reply: Reply) -> Body:
        """A variable or an expression; else the reply of Rewind, with a hint."""
        if frame and (len(words) == 1 or self.has_value(debuggee, text, frame)):
            return self.value(debuggee, text, frame)
        self.adapter.later.append(lambda: self.adapter.say("console", hint(text)))
        return said("\n".join(reply.lines))

    def set_breakpoint(self, debuggee: Debuggee, wanted: str) -> Body:
        """`break LINE` or `break FUNCTION`; on a line without a statement it is moved."""
        found = place_of(debuggee.session.program, wanted.rpartition(":")[2])
        reply = debuggee.session.ask(f"break {found.line}")
        if reply.is_ok:
            debuggee.breakpoints.note_command(["break", str(found.line)])
        is_told = found.is_moved or not wanted.isdigit()
        return said("\n".join(reply.lines + [f"The breakpoint is on {debuggee.session.program.at(found.line)}"] * is_told))

    def after_command(self, debuggee: Debuggee, words: list[str], reply: Reply) -> None:
        """What follows from a command that was done."""
        if words[0] == "quit":
            self.adapter.later.append(self.adapter.gone)
        elif words[0] == "clear":
            debuggee.breakpoints.note_command(words)
        elif words[0] == "free" and debuggee.launch.workers:
            self.set_workers_going(debuggee, int(words[1]))
        elif words[0] in MOVING:
            named = [step_owner(step) for step in steps_named(reply)]
            focus = named[-1 if words[0] in ("step", "redo") else 0] if named else debuggee.focus
            stop = Stop("step", focus, f"After '{' '.join(words)[:40]}': {reply.last[:80]}")
            self.adapter.stop_at(end(debuggee.session) if debuggee.session.stopped_by() else stop)

    def set_workers_going(self, debuggee: Debuggee, steps: int) -> None:
        """The workers take steps; without a movement under way that is one."""
        debuggee.granted = steps
        if steps and self.adapter.motion is None:
            self.adapter.tell_continued(debuggee)
            self.adapter.begin(work(debuggee))

    # Values.

    def has_value(self, debuggee: Debuggee, text: str, frame: int) -> bool:
        """Whether a text is a variable of a frame that is there, or an expression over such variables."""
        if debuggee.view.goroutine_at(frame) is None:
            return False
        is_variable = any(body["name"] == text for body in debuggee.view.of_frame(frame))
        return is_variable or bool(in_frame(text, debuggee.session, debuggee.view.frame_at(frame)).value)

    def value(self, debuggee: Debuggee, text: str, frame: int) -> Body:
        """The value of a variable of a frame, of a channel by its name, or of an expression over variables."""
        view = debuggee.view
        bodies = [body for body in view.of_frame(frame) if body["name"] == text] if frame else []
        if not bodies and is_channel(text) and debuggee.session.channel(text) is not None:
            view.renew()
            bodies = [view.values.variable(text, text)]
        why = f"there is no variable '{text[:80]}' with a value here"
        if not bodies and frame:
            found = in_frame(text, debuggee.session, view.frame_at(frame))
            bodies = [view.values.variable(text, found.value)] if found.value else []
            why = why if text.isidentifier() else f"'{text[:80]}' has no value: {found.why}"
        if not bodies:
            raise BadRequest(why)
        return {"result": bodies[-1]["value"], **{key: bodies[-1][key] for key in ("type", "variablesReference")}}


def said(text: str) -> Body:
    return {"result": text, "variablesReference": 0}
