"""Words of the shell in the console of an editor: they look, or move the program."""
from __future__ import annotations

from collections.abc import Callable
from typing import TYPE_CHECKING, Optional

from rewind_client import motion
from rewind_client.breakpoints import place_of
from rewind_client.core import with_plain_blanks, words_of
from rewind_client.errors import RewindError
from rewind_client.names import is_step
from rewind_client.replies import Goroutine
from rewind_client.searching import ahead
from rewind_shell.looking import Looking
from rewind_shell.moving import never_there, no_variable
from rewind_shell.saving import read_script, write_script
from rewind_shell.searching import Searching
from rewind_shell.words import HINTS, too_many

from .answer import Answer
from .arguments import Arguments, BadRequest
from .debuggee import Debuggee
from .runs import How, along, backward, forward
from .stops import behind_commands, step_back, taken

if TYPE_CHECKING:
    from .adapter import Adapter

MAX_STEPS = 1_000_000

# A movement of a goroutine of the program, with the words that came behind its name.
Moving = Callable[[Debuggee, Goroutine, list[str]], None]


class Words:
    """Obeys the words of the shell, each by its full name."""

    def __init__(self, adapter: Adapter) -> None:
        self.adapter = adapter
        self.movements: dict[str, Moving] = {
            "step": self.steps,
            "next": lambda debuggee, one, words: self.along(debuggee, one, motion.next_line, leaves=True),
            "finish": lambda debuggee, one, words: self.along(debuggee, one, motion.out_of_frame),
            "until": self.until,
            "continue": lambda debuggee, one, words: self.adapter.begin(forward(debuggee, self.adapter.say)),
            "reverse-next": lambda debuggee, one, words: self.adapter.begin(step_back(debuggee.session, one, True)),
            "reverse-continue": lambda debuggee, one, words: self.adapter.begin(backward(debuggee)),
            "back": self.back,
            "load": self.load,
            "follow": self.follow,
            "restart": lambda debuggee, one, words: self.restart(),
        }

    def obey(self, name: str, words: list[str], chosen: str) -> Optional[str]:
        """What a word answers, about the chosen goroutine; None where it is no such word."""
        why = too_many(name, words)
        if why:
            raise BadRequest(why)
        if name in self.movements:
            debuggee = self.adapter.stopped_debuggee()
            goroutine = debuggee.session.goroutine(chosen) or debuggee.session.goroutine("g0")
            assert goroutine is not None
            self.movements[name](debuggee, goroutine, words)
            if self.adapter.motion is not None:
                self.adapter.tell_continued(debuggee)
            return ""
        desk = Answer(self.adapter.any_debuggee(), chosen)
        looking = self.looking(desk)
        if name not in looking:
            return None
        debuggee = self.adapter.stopped_debuggee()
        looking[name](words)
        if name == "goroutine":
            debuggee.focus = desk.chosen
        return desk.text()

    # Movements.

    def restart(self) -> None:
        self.adapter.handlers["restart"](Arguments({}))

    def steps(self, debuggee: Debuggee, goroutine: Goroutine, words: list[str]) -> None:
        wanted = words[0] if words else "1"
        if len(words) > 1 or not wanted.isdigit() or not 0 < int(wanted) <= MAX_STEPS:
            raise BadRequest(HINTS["step"])
        self.along(debuggee, goroutine, lambda session, one, lines, hit: motion.some_steps(session, one.name, int(wanted)))

    def until(self, debuggee: Debuggee, goroutine: Goroutine, words: list[str]) -> None:
        if len(words) != 1 or not words[0].isdigit():
            raise BadRequest("until wants a line: until 12")
        wanted = place_of(debuggee.session.program, words[0]).line
        self.along(debuggee, goroutine, lambda session, one, lines, hit: motion.until_line(session, one, lines, wanted, hit))

    def along(self, debuggee: Debuggee, goroutine: Goroutine, how: How, leaves: bool = False) -> None:
        self.adapter.begin(along(debuggee, goroutine, self.adapter.say, how, leaves))

    def back(self, debuggee: Debuggee, goroutine: Goroutine, words: list[str]) -> None:
        """`back LINE` and `back var X`; the other forms are commands of Rewind."""
        names = debuggee.session.back(target_of(debuggee, goroutine.name, words))
        self.adapter.stop_at(taken("Took back", names, goroutine.name))

    def load(self, debuggee: Debuggee, goroutine: Goroutine, words: list[str]) -> None:
        """Takes the commands of a script."""
        if not words:
            raise BadRequest("load wants a file: load session.script")
        path, refused = " ".join(words), 0
        saved = read_script(path)
        if not saved.is_of(debuggee.session.program):
            self.adapter.say("important", f"{path} is of another source: its commands may mean something else here")
        for line in map(with_plain_blanks, saved.commands):
            given = words_of(line)
            if given and given[0] != "quit":
                reply = debuggee.session.ask(line)
                refused += not reply.is_ok
                if given[0] in ("break", "clear") and reply.is_ok:
                    debuggee.breakpoints.note_command(given)
        told = f"After the commands of {path}, {refused} of them refused"
        self.adapter.stop_at(behind_commands(debuggee.session, goroutine.name, told))

    def follow(self, debuggee: Debuggee, goroutine: Goroutine, _words: list[str]) -> None:
        """Takes the steps of the schedule that a search found."""
        commands = ahead(debuggee.session)
        for command in commands:
            debuggee.session.ask(command)
        told = f"After {len(commands)} steps of the schedule that was found"
        self.adapter.stop_at(behind_commands(debuggee.session, goroutine.name, told))

    # Looks.

    def looking(self, desk: Answer) -> dict[str, Callable[[list[str]], None]]:
        own = {"preview": lambda words: preview(desk, words), "save": lambda words: save(desk, words)}
        return {**Looking(desk).handlers(), **Searching(desk).handlers(), **own}


def preview(desk: Answer, words: list[str]) -> None:
    """The steps that `back` would take back."""
    target = target_of(desk.debuggee, desk.chosen, words)
    names = desk.session.preview(target)
    desk.screen.say(f"'back {target}' would take back {len(names)} steps: {' '.join(names)}")


def save(desk: Answer, words: list[str]) -> None:
    """Writes the commands that changed the session to a file."""
    if not words:
        raise BadRequest("save wants a file: save session.script")
    write_script(" ".join(words), desk.session.core.given, desk.program)
    desk.screen.say(f"{len(desk.session.core.given)} commands are in {' '.join(words)}")


def target_of(debuggee: Debuggee, name: str, words: list[str]) -> str:
    """What `back` and `preview` are about: a step, a line where the goroutine was last, or a variable of it."""
    if len(words) == 1 and words[0].isdigit():
        step = motion.last_at_line(debuggee.session, name, int(words[0]))
        if not step:
            raise RewindError(never_there(debuggee.session, name, words[0]))
        return step
    variable = words[1] if len(words) == 2 and words[0] == "var" else words[0] if len(words) == 1 else ""
    if variable.isidentifier():
        why = no_variable(debuggee.session, variable)
        if why:
            raise BadRequest(why)
        return f"var {name} {variable}"
    target = " ".join(words)
    if is_step(target) or (len(words) > 1 and words[0] in ("go", "send", "recv", "var")):
        return target
    raise BadRequest(HINTS["back"])
