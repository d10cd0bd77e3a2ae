"""The shell itself: it obeys lines, one after the other."""
from __future__ import annotations

from collections.abc import Callable, Sequence
from typing import Optional

from rewind_client.breakpoints import Breakpoints, NoPlace
from rewind_client.core import MOVING as MOVING_WORDS
from rewind_client.core import Refused, with_plain_blanks, words_of
from rewind_client.carried import CarriedProgram, left_of
from rewind_client.errors import Cancelled, ProcessError, RewindError, SourceRefused
from rewind_client.explanations import Standing, standing_of
from rewind_client.finding import Settings, explained
from rewind_client.meanings import FAULTS, REFUSED_COMMANDS
from rewind_client.names import step_owner
from rewind_client.opening import open_session
from rewind_client.printed import change
from rewind_client.program import Program, read_program
from rewind_client.refusals import explain_refusal
from rewind_client.replies import Entry, Reply, State, steps_named
from rewind_client.searching import Blamed, Searched, ahead, blame_from, search_from
from rewind_client.stories import Stories

from .interrupts import Interrupts
from .looking import Looking
from .moving import Moving
from .saving import Script, read_script
from .searching import Searching
from .terminal import Screen
from .words import BY_NAME, CORE, FOR_WORKERS, hint, meant_words, too_many

PASSED = frozenset(word.name for word in CORE) - {"run"}
TARGETS = frozenset(("go", "send", "recv"))
MAX_PRINTED = 10
MAX_TOLD = 10_000
# A movement is followed by a look at the console where that has no more bytes.
MAX_CONSOLE = 1 << 25


class Shell:
    """A session with a person: the chosen goroutine, breakpoints, and what was printed and saved."""

    def __init__(
        self, rewind: str, path: str, screen: Screen, interrupts: Interrupts, asks: Optional[Callable[[str], str]]
    ) -> None:
        """`asks` puts a question at a terminal; None where there is none to answer."""
        self.rewind = rewind
        self.path = path
        self.screen = screen
        self.interrupts = interrupts
        self.asks = asks
        self.script = Script(path)
        self.is_over = False
        self.is_lost = False
        self.begin()
        self.breakpoints: Breakpoints = Breakpoints(self.session)
        looking, searching, moving = Looking(self), Searching(self), Moving(self)
        own: dict[str, Callable[[list[str]], None]] = {
            "save": self.save, "load": self.load, "restart": self.restart, "follow": self.follow
        }
        self.handlers = {**looking.handlers(), **searching.handlers(), **moving.handlers(), **own}

    def begin(self) -> None:
        """Begins the program, with nothing taken."""
        settings = Settings(cancelled=self.interrupts.gives_up, journal=self.script.note)
        self.session = open_session(self.rewind, self.path, settings)
        if isinstance(self.session.program, CarriedProgram):
            self.screen.say(self.session.program.told(), "note")
        self.chosen = "g0"
        self.printed: Optional[list[str]] = []

    @property
    def takes_values(self) -> bool:
        return False

    @property
    def has_workers(self) -> bool:
        return False

    @property
    def program(self) -> Program:
        return self.session.program

    def end(self) -> None:
        self.session.end()
        self.script.end()

    # Lines.

    def obey(self, line: str) -> None:
        """Does what a line says, and tells what was wrong with it where it can't."""
        self.guarded(lambda: self.obeyed(with_plain_blanks(line)))

    def guarded(self, action: Callable[[], None]) -> None:
        """Does something, and tells what was wrong where that can't be done."""
        self.interrupts.begin()
        try:
            action()
        except Cancelled:
            self.screen.say("Stopped by Ctrl-C; Rewind may still do the command.", "note")
        except Refused as refusal:
            self.screen.reply([refusal.reply.last])
            self.tell_refusal(refusal.code)
        except ProcessError as fault:
            self.lost(fault)
        except SourceRefused as refused:
            for text in refusal_in_words(self.path, refused).split("\n"):
                self.screen.line(text, "error")
        except RewindError as fault:
            self.screen.say(str(fault), "error")
        finally:
            self.interrupts.end()
            self.screen.flush()

    def obeyed(self, line: str) -> None:
        words = words_of(line)
        if not words:
            return
        meant = meant_words(words)
        line = line if meant == words else " ".join(meant)
        name = meant[0]
        if name == "quit" and len(meant) == 1:
            self.leave()
        elif name not in BY_NAME or is_for_rewind(meant):
            self.passed(line)
        elif too_many(name, meant[1:]):
            self.screen.say(too_many(name, meant[1:]), "error")
        else:
            self.handlers[name](meant[1:])

    def leave(self) -> None:
        if not self.is_lost:
            self.screen.reply(self.session.ask("quit").lines)
        self.is_over = True

    def lost(self, fault: ProcessError) -> None:
        """The process is gone: what is left."""
        self.screen.say(str(fault), "error")
        saved = f"; the commands so far are in {self.script.path}" if self.script.path else ""
        self.screen.say(f"'restart' begins the program anew{saved}", "note")
        self.is_lost = True

    # Commands of Rewind.

    def passed(self, line: str) -> None:
        """A line for Rewind, unchanged, with its reply and what that means."""
        reply, words = self.session.ask(line), words_of(line)
        self.screen.reply(reply.lines)
        if not reply.name:
            self.screen.say(hint(line), "note")
            return
        self.script.typed(line)
        if not reply.is_ok:
            self.tell_refusal(reply.code)
        elif words[0] in MOVING_WORDS:
            self.after_move(words)
        elif words[0] == FOR_WORKERS:
            self.screen.say("The shell has no workers: nothing takes these steps.", "note")

    def after_move(self, words: Sequence[str]) -> None:
        """What follows from steps that were taken, or taken back."""
        self.tell_printed()
        if words[0] == "step":
            self.chosen = words[1]
        if words[0] in ("step", "redo") and self.session.stopped_by():
            self.screen.say(self.end_in_words(), "note")

    def tell_refusal(self, code: str) -> None:
        meaning = REFUSED_COMMANDS.get(code)
        if meaning:
            self.screen.say(f"{code}: {meaning} ('help {code}' tells more)", "note")

    # What is told after a movement.

    def end_in_words(self) -> str:
        """A sentence for a program that goes no further."""
        session, standing = self.session, standing_of(self.session)
        if standing is Standing.FAULT:
            last = session.entry(-1)
            shown = session.goroutine(step_owner(last.step))
            _, line = self.program.outside([it.function for it in shown.frames], shown.line) if shown else ((), 0)
            place = f"{step_owner(last.step)} at {self.program.at(line)}"
            return f"{FAULTS.get(last.kind.fault, last.kind.fault)}, in {place} ('why' tells more)"
        if standing is Standing.ENDED:
            number = sum(it.state is not State.DONE for it in session.goroutines())
            if not number:
                return "The program has ended, and every goroutine is done."
            were, who = ("1 goroutine was", "it") if number == 1 else (f"{number} goroutines were", "they")
            return f"The program has ended. {were} not done when main returned ('why' tells what {who} would do)."
        if standing is Standing.DEADLOCK:
            names = [it.name for it in session.goroutines() if it.state is State.WAITING]
            named = ", ".join(names[:8]) + (", .." if len(names) > 8 else "")
            return f"Deadlock: {named} {'waits' if len(names) == 1 else 'wait'}, and no goroutine is ready ('why' tells for what)."
        return ""

    def tell_chosen(self, entry: Optional[Entry] = None) -> None:
        """Where the chosen goroutine stands, and its last step where one was taken."""
        found = self.session.goroutine(self.chosen)
        if found is None:
            self.screen.say(f"{self.chosen} is not started any more; 'goroutine G' chooses another")
            return
        taken = f"{entry.step} {entry.kind}; " if entry else ""
        self.screen.say(f"{taken}{self.chosen} is {Stories(self.session).goroutine(found)}")

    def tell_printed(self) -> None:
        """The lines that the program has printed since the last command, and those that it no longer has.

        Where they may be very many they are told no more, since each movement would have to ask for all of them.
        """
        width = self.program.printed_width()
        if self.printed is None or not width:
            return
        if width * self.session.core.kept > MAX_CONSOLE:
            self.tell_printed_no_more()
            return
        now = self.session.core.console()
        found, self.printed = change(self.printed, now), now
        for lines, did in ((found.added, "prints"), (found.taken_back, "no longer prints")):
            for text in lines[:MAX_PRINTED]:
                self.screen.line(f"{did}: {text}", "source")
            if len(lines) > MAX_PRINTED:
                self.screen.say(f"(and {len(lines) - MAX_PRINTED} lines more: 'console' shows all that is printed)")
        if len(now) > MAX_TOLD:
            self.tell_printed_no_more()

    def tell_printed_no_more(self) -> None:
        self.printed = None
        self.screen.say("(from here on only 'console' shows what is printed)", "note")

    # Words of the shell itself.

    def agrees(self, question: str) -> bool:
        """Whether the user agrees; where nobody can be asked it is so."""
        if self.asks is None:
            return True
        try:
            return self.asks(question + " [Y/n] ").strip().lower() in ("", "y", "yes")
        except (EOFError, KeyboardInterrupt):
            return False

    def explained(self, code: str) -> list[str]:
        """What Rewind tells of a code; nothing where it is none."""
        return explained(self.rewind, code)

    def searched(self, states: int) -> Searched:
        """What comes of a search of all schedules from here."""
        return search_from(self.rewind, self.session, states, self.interrupts.pending)

    def blamed(self, states: int, seconds: Optional[float] = None) -> Blamed:
        """Which step of the log is to blame for where the session stands."""
        return blame_from(self.rewind, self.session, states, seconds, self.interrupts.pending)

    def follow(self, _words: list[str]) -> None:
        """Takes the steps of the schedule that a search found."""
        self.take(ahead(self.session), "the schedule")

    def save(self, words: list[str]) -> None:
        if not words:
            self.screen.say("save wants a file: save session.script", "error")
            return
        path = " ".join(words)
        self.script.save(path, self.program)
        self.screen.say(f"{counted(len(self.script.lines), 'command is', 'commands are')} in {path}")

    def load(self, words: list[str]) -> None:
        if not words:
            self.screen.say("load wants a file: load session.script", "error")
            return
        self.load_file(" ".join(words))

    def load_file(self, path: str) -> None:
        """Takes the commands of a script, and tells the last reply."""
        saved = read_script(path)
        if not saved.is_of(self.program):
            self.screen.say(f"{path} is of another source than {self.path}: its commands may mean something else here", "error")
        self.take(saved.commands, path)

    def take(self, lines: Sequence[str], path: str) -> None:
        """Takes commands of a file, and tells the last reply."""
        commands = [line for line in map(with_plain_blanks, lines) if words_of(line) and words_of(line)[0] != "quit"]
        refused, reply = 0, Reply({"answer": "done"}, "ok\n")
        for number, line in enumerate(commands, 1):
            reply = self.session.ask(line)
            refused += not reply.is_ok
            given = words_of(line)
            if given[0] == "break" and reply.is_ok:
                self.breakpoints.note(int(given[1]))
            elif given[0] == "clear" and reply.is_ok:
                self.breakpoints.by_line.pop(int(given[1]), None)
            if self.interrupts.pending():
                self.screen.say(f"Stopped by Ctrl-C after {counted(number, 'command', 'commands')} of {path}", "note")
                return
        taken = counted(len(commands), f"command of {path} was", f"commands of {path} were")
        self.screen.say(f"{taken} taken, {refused} of them refused; the last gave")
        self.screen.reply([reply.last])
        self.tell_printed()
        named = steps_named(reply)
        self.chosen = step_owner(named[-1]) if named else self.chosen
        sentence = self.end_in_words()
        if sentence:
            self.screen.say(sentence, "note")

    def restart(self, _words: list[str]) -> None:
        """Begins the program anew, with the breakpoints as they are. Where its file is refused now, the session goes on."""
        before, old, kept = self.breakpoints.all(), self.session, self.script.lines
        self.begin()
        old.end()
        if self.script.path:
            self.screen.say(f"The commands before are in {self.script.path}")
            self.script.begin(self.program)
        else:
            del kept[:]
        self.is_lost = False
        self.breakpoints = Breakpoints(self.session)
        for one in before:
            try:
                self.breakpoints.set(str(one.shown))
            except NoPlace as fault:
                self.screen.say(f"the breakpoint on line {one.line} is gone: {fault}", "note")
        self.tell_saved()
        self.tell_chosen()

    def tell_saved(self) -> None:
        if self.script.fault:
            self.screen.say(self.script.fault, "error")
        elif self.script.path:
            self.screen.say(f"The session is saved as it goes: {self.script.path}", "faint")


def counted(number: int, one: str, more: str) -> str:
    return f"1 {one}" if number == 1 else f"{number} {more}"


def refusal_in_words(path: str, refused: SourceRefused) -> str:
    """A refused source: where, why, the line with a mark, and what to write instead."""
    try:
        told = explain_refusal(read_program(path).text, refused.code, refused.line, refused.column)
    except RewindError:
        return str(refused)
    return "\n".join([told.text(path), f"more: rewind --explain {refused.code}", *left_of(refused)])


def is_for_rewind(words: Sequence[str]) -> bool:
    """Whether a line goes to Rewind as it is. `step`, `back`, `break` and `clear` have forms of the shell besides."""
    name = words[0]
    if name in PASSED or name == "quit":
        return True
    if name == "step":
        return len(words) > 1 and not (len(words) == 2 and words[1].isdigit())
    if name == "back":
        is_variable = words[1:2] == ["var"] and len(words) != 3
        return len(words) > 1 and (words[1] in TARGETS or is_variable or "#" in words[1])
    return False
