"""The words that move the program, forward and back."""
from __future__ import annotations

from collections.abc import Callable
from typing import TYPE_CHECKING, Optional

from rewind_client import motion
from rewind_client.motion import Motion, Stop, StopReason
from rewind_client.names import is_goroutine, is_step, step_owner
from rewind_client.replies import Goroutine, Ran, Reason, State
from rewind_client.session import NOTED, Session

from .words import HINTS

if TYPE_CHECKING:
    from .shell import Shell

MAX_RUN = 1_000_000
LISTED = 12


class Moving:
    """Moves, and tells where that led."""

    def __init__(self, shell: Shell) -> None:
        self.shell = shell
        self.screen = shell.screen

    def handlers(self) -> dict[str, Callable[[list[str]], None]]:
        return {
            "step": self.step,
            "next": lambda words: self.along(motion.next_line),
            "finish": lambda words: self.along(motion.out_of_frame),
            "until": self.until,
            "continue": self.go_on,
            "run": self.run,
            "reverse-next": self.reverse_next,
            "reverse-continue": self.reverse,
            "back": self.back,
            "preview": self.preview,
            "break": self.set_breakpoint,
            "clear": self.clear,
        }

    # Forward.

    def chosen(self) -> Optional[Goroutine]:
        """The chosen goroutine; none where it takes no step, with a sentence."""
        found = self.shell.session.goroutine(self.shell.chosen)
        if found is None:
            self.screen.say(f"there is no goroutine {self.shell.chosen} any more; 'goroutine G' chooses another", "error")
            return None
        if self.shell.session.stopped_by():
            self.screen.say("the program has stopped; 'undo' or 'back' takes steps back", "error")
            return None
        if found.state is State.READY:
            return found
        ready = [it.name for it in self.shell.session.ready()]
        others = f"'goroutine {ready[0]}' chooses another" if ready else "'why' tells for what"
        state = "waits" if found.state is State.WAITING else "is done"
        self.screen.say(f"{found.name} {state}; {others}", "error")
        return None

    def step(self, words: list[str]) -> None:
        goroutine = self.chosen()
        times = int(words[0]) if words else 1
        if goroutine and 0 < times <= MAX_RUN:
            self.drive(motion.some_steps(self.shell.session, goroutine.name, times))
        elif goroutine:
            self.screen.say(f"step takes 1 to {MAX_RUN} steps", "error")

    def along(self, how: Callable[..., Motion]) -> None:
        goroutine = self.chosen()
        if goroutine:
            self.drive(how(self.shell.session, goroutine, self.shell.breakpoints.lines))

    def until(self, words: list[str]) -> None:
        if len(words) != 1 or not words[0].isdigit():
            self.screen.say("until wants a line: until 12", "error")
            return
        line = self.shell.program.statement_at(int(words[0]))
        goroutine = self.chosen()
        if line is None:
            self.screen.say(f"no statement begins on line {words[0]} or after it", "error")
        elif goroutine:
            self.drive(motion.until_line(self.shell.session, goroutine, self.shell.breakpoints.lines, line))

    def go_on(self, _words: list[str]) -> None:
        self.drive(motion.forward(self.shell.session, self.shell.breakpoints.lines, self.shell.chosen))

    def run(self, words: list[str]) -> None:
        """A run of Rewind, in portions, with its reply."""
        if len(words) != 1 or not words[0].isdigit() or words[0].startswith("0") or int(words[0]) > MAX_RUN:
            self.shell.passed("run " + " ".join(words) if words else "run")
            return
        lines = self.shell.breakpoints.lines
        taken, stop = self.driven(motion.forward(self.shell.session, lines, self.shell.chosen, int(words[0])))
        ran = stop.ran if stop and stop.ran else Ran(taken, Reason.COUNT)
        line = f" {ran.line}" if ran.reason is Reason.BREAK else ""
        self.screen.reply([f"ok {ran.taken} {ran.reason.value}{line}"])
        self.tell(stop, taken, False)

    def drive(self, movement: Motion) -> None:
        taken, stop = self.driven(movement)
        self.tell(stop, taken, True)

    def driven(self, movement: Motion) -> "tuple[int, Optional[Stop]]":
        """Moves until the movement stops, or Ctrl-C does it: how many steps it had told of, and where it stopped itself."""
        taken = 0
        try:
            while True:
                taken = next(movement)
                if self.shell.interrupts.pending():
                    movement.close()
                    return taken, None
        except StopIteration as over:
            stop: Stop = over.value
            return taken, stop

    # Where it led.

    def tell(self, stop: Optional[Stop], taken: int, shows_place: bool) -> None:
        """The sentence for a stop, and where the chosen goroutine stands."""
        self.shell.tell_printed()
        if stop is None:
            self.screen.say(f"Stopped by Ctrl-C after {taken} steps; 'continue' goes on.", "note")
            return
        if stop.reason in (StopReason.BREAKPOINT, StopReason.FAULT, StopReason.WAITS):
            self.shell.chosen = stop.goroutine
        sentence = self.sentence(stop)
        if sentence:
            self.screen.say(sentence, "note")
        if shows_place and stop.reason in (StopReason.STEP, StopReason.WAITS, StopReason.COUNT, StopReason.BREAKPOINT):
            self.shell.tell_chosen(stop.entry)

    def sentence(self, stop: Stop) -> str:
        if stop.reason is StopReason.BREAKPOINT:
            return f"Breakpoint on {self.shell.program.where(stop.line)}: {stop.goroutine} comes to {self.shell.program.line(stop.line)}"
        if stop.reason is StopReason.ENTRY:
            return "The start of the program."
        if stop.reason is StopReason.COUNT and stop.ran:
            return f"The run has taken the {'step' if stop.ran.taken == 1 else f'{stop.ran.taken} steps'} that it was to take."
        if stop.reason is StopReason.FULL:
            return "The log is full with 1,000,000 steps; 'undo' or 'back' takes steps back."
        if stop.reason is StopReason.MEMORY:
            return "There is no memory for the next step."
        if stop.reason in (StopReason.DEADLOCK, StopReason.FAULT, StopReason.ENDED):
            return self.shell.end_in_words()
        return ""

    # Back.

    def reverse_next(self, _words: list[str]) -> None:
        goroutine = self.shell.session.goroutine(self.shell.chosen)
        step = motion.line_before(self.shell.session, goroutine) if goroutine else ""
        if not step:
            self.screen.say(
                f"{self.shell.chosen} has taken no step that is noted; 'back go G' takes the start of a goroutine back", "error"
            )
            return
        self.take_back(step, asks=False)

    def reverse(self, _words: list[str]) -> None:
        self.drive(motion.backward(self.shell.session, self.shell.breakpoints.lines))

    def back(self, words: list[str]) -> None:
        """`back LINE` and `back var X` of the chosen goroutine; other forms go to Rewind."""
        if len(words) == 1 and words[0].isdigit():
            step = motion.last_at_line(self.shell.session, self.shell.chosen, int(words[0]))
            if step:
                self.take_back(step, asks=True)
            else:
                self.screen.say(never_there(self.shell.session, self.shell.chosen, words[0]), "error")
        elif len(words) == 2 and words[0] == "var" and words[1].isidentifier():
            self.back_to_variable(words[1])
        elif len(words) == 1 and words[0].isidentifier() and not is_goroutine(words[0]):
            self.back_to_variable(words[0])
        else:
            self.screen.say(HINTS["back"], "error")

    def back_to_variable(self, name: str) -> None:
        """Takes back the step that gave a variable of the chosen goroutine its value."""
        why = no_variable(self.shell.session, name)
        if why:
            self.screen.say(why, "error")
        else:
            self.take_back(f"var {self.shell.chosen} {name}", asks=True)

    def take_back(self, target: str, asks: bool) -> None:
        """Takes a step back; where it asks, after a preview and, at a terminal, a question."""
        if asks:
            gone = self.shell.session.preview(target)
            self.tell_steps("This takes back", gone)
            if not self.shell.agrees("Take them back?"):
                return
        gone = self.shell.session.back(target)
        self.screen.reply([f"ok {len(gone)} {' '.join(gone)}"])
        self.shell.tell_printed()
        self.shell.tell_chosen()

    def preview(self, words: list[str]) -> None:
        target = " ".join(words)
        if len(words) == 1 and words[0].isdigit():
            target = motion.last_at_line(self.shell.session, self.shell.chosen, int(words[0]))
        elif len(words) == 2 and words[0] == "var":
            target = f"var {self.shell.chosen} {words[1]}"
        is_target = bool(target) and (is_step(target) or target.split()[0] in ("go", "send", "recv", "var"))
        if not is_target:
            self.screen.say("preview wants what back wants: preview g0.1#3, preview 12, preview var x", "error")
            return
        self.tell_steps(f"'back {target}' would take back", self.shell.session.preview(target))

    def tell_steps(self, did: str, names: list[str]) -> None:
        """Steps that go, and of which goroutines they are."""
        of: dict[str, int] = {}
        for name in names:
            of[step_owner(name)] = of.get(step_owner(name), 0) + 1
        counts = ", ".join(f"{number} of {name}" for name, number in list(of.items())[:LISTED])
        number = "1 step" if len(names) == 1 else f"{len(names)} steps"
        self.screen.say(f"{did} {number} ({counts}): {listed(names)}")

    # Breakpoints.

    def set_breakpoint(self, words: list[str]) -> None:
        breakpoints = self.shell.breakpoints
        if not words:
            for one in breakpoints.all():
                self.screen.say(self.shell.program.at(one.line))
            if not breakpoints.all():
                self.screen.say("no breakpoint is set; 'break 12' or 'break main' sets one")
            return
        wanted = words[0].rpartition(":")[2]
        if len(words) > 1 or not (wanted.isdigit() or wanted.isidentifier()):
            self.screen.say(HINTS["break"], "error")
            return
        found = breakpoints.set(wanted)
        self.screen.reply(["ok"])
        if found.is_moved or not wanted.isdigit():
            why = "moved to" if found.is_moved else "set on"
            self.screen.say(f"The breakpoint is {why} {self.shell.program.at(found.line)}", "note")

    def clear(self, words: list[str]) -> None:
        if len(words) != 1 or not words[0].isdigit() or not int(words[0]):
            self.shell.passed(" ".join(["clear", *words]))
            return
        was_there = self.shell.breakpoints.clear(int(words[0]))
        self.screen.reply(["ok"])
        if not was_there:
            self.screen.say(f"there was no breakpoint on line {words[0]}; 'break' lists them")


def no_variable(session: Session, name: str) -> str:
    """Why a name is no variable whose value can be taken back; an empty text where it may be one."""
    functions = session.program.functions
    if name in functions and not any(name in it.names for it in functions.values()):
        return f"{name} is a function; 'back go G' takes back the start of a goroutine, and 'back LINE' what was done on a line"
    if not any(name in it.names for it in functions.values()):
        return f"there is no variable '{name[:40]}' in the program; {HINTS['back']}"
    return ""


def never_there(session: Session, chosen: str, line: str) -> str:
    """That a goroutine has not been on a line, as far as that is known."""
    if not session.is_noted():
        return f"{chosen} has taken no step on line {line} among the last {NOTED}, of which lines are known"
    return f"{chosen} has taken no step on line {line}"


def listed(names: list[str]) -> str:
    return " ".join(names[:LISTED]) + (f" .. {names[-1]}" if len(names) > LISTED else "")
