"""The words that only look: who is where, and why."""
from __future__ import annotations

from collections.abc import Callable
from typing import Optional

from rewind_client.carried import CarriedProgram
from rewind_client.direct import DirectCauses
from rewind_client.explanations import Standing, explain
from rewind_client.expressions import evaluated
from rewind_client.facts import Fact
from rewind_client.names import is_channel, is_goroutine, is_step, step_number, step_of
from rewind_client.program import Program
from rewind_client.replies import Goroutine
from rewind_client.sentences import Sentences
from rewind_client.session import NOTED
from rewind_client.stories import Stories, relation

from .desk import Desk
from .words import BY_NAME, CODES, FOR_WORKERS, GROUPS, HINTS, TERMS, Word, word_of

AROUND = 5
SHOWN_STEPS = 40
MAX_ROWS = 1000
SHOWN_TEXT = 60
# To follow so many steps takes longer than a person waits without a sign.
LONG = 10_000
# So far `why` looks for the step to blame: states of a search, and seconds, which most programs are far from.
BLAMED_STATES = 10_000
BLAMED_WITHIN = 5


class Looking:
    """Answers from what is known of the session."""

    def __init__(self, shell: Desk) -> None:
        self.shell = shell
        self.screen = shell.screen

    def handlers(self) -> dict[str, Callable[[list[str]], None]]:
        return {
            "help": self.help,
            "goroutines": self.goroutines,
            "goroutine": self.choose,
            "channels": self.channels,
            "why": self.why,
            "bt": self.frames,
            "list": self.source,
            "carried": self.carried,
            "print": self.print,
            "history": self.history,
            "direct": self.direct,
        }

    # Help.

    def help(self, words: list[str]) -> None:
        if not words:
            for title, group in GROUPS.items():
                self.screen.say(title, "strong")
                for word in group:
                    if word.name == FOR_WORKERS and not self.shell.has_workers:
                        continue
                    self.screen.say(f"  {used(word):<28} {word.does}")
            self.screen.say("'help WORD' tells more of a word, and 'help CODE' of a code such as N3 or SendOnClosed.")
            return
        name = word_of(words[0])
        if name:
            self.one_word(BY_NAME[name])
        else:
            self.explained(words[0])

    def one_word(self, word: Word) -> None:
        self.screen.say(used(word), "strong")
        self.screen.say("  " + word.does)
        if word.more:
            self.screen.say("  " + word.more)
        if word.name in HINTS:
            self.screen.say("  " + HINTS[word.name])

    def explained(self, code: str) -> None:
        """What Rewind itself tells of a code, or what a word of ours means."""
        if code.lower() in TERMS:
            self.screen.say(TERMS[code.lower()])
            return
        lines = self.shell.explained(CODES.get(code.lower(), code))
        for line in lines or [f"there is no command and no code '{code[:40]}'; 'help' lists the commands"]:
            self.screen.say(line)

    # Who is where.

    def goroutines(self, _words: list[str]) -> None:
        stories, session = Stories(self.shell.session), self.shell.session
        found = session.goroutines()
        for one in found[:MAX_ROWS]:
            mark = "*" if one.name == self.shell.chosen else " "
            self.screen.row(f"{mark} {one.name:<8} {stories.goroutine(one)}")
        self.more(len(found) - MAX_ROWS, "goroutines")

    def more(self, number: int, what: str) -> None:
        if number > 0:
            self.screen.say(f"and {number} {what} more")

    def choose(self, words: list[str]) -> None:
        if words:
            found = self.known(words[0])
            if found is None:
                return
            self.shell.chosen = found.name
        self.shell.tell_chosen()

    def known(self, name: str) -> Optional[Goroutine]:
        """A goroutine that the user named, or none, with a sentence."""
        found = self.shell.session.goroutine(name) if is_goroutine(name) else None
        if found is None:
            self.screen.say(f"there is no goroutine {name[:40]}; 'goroutines' lists them", "error")
        return found

    def channels(self, _words: list[str]) -> None:
        stories = Stories(self.shell.session)
        found = self.shell.session.channels()
        for one in found[:MAX_ROWS]:
            self.screen.say(f"{self.shell.session.name_of(one.name)}: {stories.channel(one)}")
        self.more(len(found) - MAX_ROWS, "channels")
        if not found:
            self.screen.say("no channel is made yet")

    def why(self, _words: list[str]) -> None:
        session = self.shell.session
        self.tell_reading()
        found = explain(session)
        for line in Sentences(session).all(found):
            self.screen.say(line, "faint" if line.startswith(" ") else "")
        if found.standing in (Standing.DEADLOCK, Standing.FAULT):
            self.tell_blame()
        self.tell_limit()

    def tell_blame(self) -> None:
        """Which step made the bad end certain, where a search finds it while a user waits."""
        blamed = self.shell.blamed(BLAMED_STATES, BLAMED_WITHIN)
        if blamed.step:
            self.screen.say(f"{blamed.step} is to blame: before it some schedule ends well, and after it none does.")
            tell_step(self.shell, blamed.step)
        elif blamed.is_hopeless:
            self.screen.say("No schedule of the program ends well.")

    def tell_reading(self) -> None:
        """Says at a terminal that the log is read, before that takes long."""
        session = self.shell.session
        if self.screen.is_terminal and min(session.length(), NOTED) - len(session.facts.rows) > LONG:
            self.screen.say("reading the log ..", "note")
            self.screen.flush()

    def tell_limit(self) -> None:
        """Says where a log is so long that the first of its steps are not noted."""
        if not self.shell.session.is_noted():
            told = "(lines, channels and values are known of the last %d of %d steps: what came of the others is not told here)"
            self.screen.say(told % (NOTED, self.shell.session.length()), "note")

    # Frames and the source.

    def frames(self, words: list[str]) -> None:
        goroutine = self.known(words[0] if words else self.shell.chosen)
        if goroutine is None:
            return
        stories = Stories(self.shell.session)
        self.screen.say(f"{goroutine.name}: {stories.goroutine(goroutine)}")
        for number, (frame, place) in enumerate(zip(goroutine.frames, self.shell.session.places(goroutine))):
            at = self.shell.program.at(place.line) if place.line else "line not known"
            self.screen.say(f"#{number} {frame.function}, {at}")
            values = [f"{it.name}={stories.variable(frame.function, it.name, it.value)}" for it in frame.variables]
            if values:
                self.screen.say("   " + " ".join(values), "faint")

    def source(self, words: list[str]) -> None:
        program, goroutine = self.shell.program, self.shell.session.goroutine(self.shell.chosen)
        here = self.shown_of(goroutine) if goroutine else 0
        if words and not words[0].isdigit():
            line = program.shown(program.heading(words[0]))
            if not line:
                self.screen.say("list wants a line or a function: list 12, list main", "error")
                return
        else:
            line = int(words[0]) if words else here or 1
        standing: dict[int, list[str]] = {}
        for one in self.shell.session.goroutines():
            standing.setdefault(self.shown_of(one), []).append(one.name)
        stops = {program.shown(line) for line in self.shell.breakpoints.lines()}
        last = min(len(program.shown_lines), line + AROUND)
        for number in range(max(1, line - AROUND), last + 1):
            mark = "=>" if number == here else " *" if number in stops else "  "
            names = "   <- " + " ".join(standing[number][:8]) if number in standing else ""
            text = program.shown_lines[number - 1].rstrip().replace("\t", "    ")
            self.screen.row(f"{mark} {number:4}  {text}{names}", "source" if number == here else "")

    def shown_of(self, goroutine: Goroutine) -> int:
        """The line of the source at which a goroutine stands, or from which it called what stands elsewhere."""
        program = self.shell.program
        shown = [program.shown(place.line) for place in self.shell.session.places(goroutine)] if goroutine.frames else []
        return next((line for line in shown if line), program.shown(goroutine.line))

    def carried(self, words: list[str]) -> None:
        """What is run in place of a source that was carried over, around a line of the source."""
        program = self.shell.program
        if not isinstance(program, CarriedProgram) or (words and not words[0].isdigit()):
            is_carried = isinstance(program, CarriedProgram)
            self.screen.say("carried wants a line of the source: carried 12" if is_carried else "the source itself is run", "note")
            return
        goroutine = self.shell.session.goroutine(self.shell.chosen)
        wanted = int(words[0]) if words else self.shown_of(goroutine) if goroutine else 1
        line = program.statement_at(wanted) or len(program.lines)
        for number in range(max(1, line - AROUND), min(len(program.lines), line + AROUND) + 1):
            text = program.lines[number - 1].rstrip().replace("\t", "    ")
            self.screen.row(f"{program.shown(number) or '':6}  {text}", "source" if number == line else "")

    def print(self, words: list[str]) -> None:
        text = " ".join(words)
        if not words:
            self.screen.say("print wants a variable, a channel or an expression: print x, print g0/c1, print len(c)", "error")
        elif is_channel(text):
            self.one_channel(text)
        elif not self.variable(text) and not self.channels_called(text):
            self.expression(text)

    def variable(self, name: str) -> bool:
        """Tells a variable of the innermost frame that has it; whether there is one."""
        stories = Stories(self.shell.session)
        goroutine = self.shell.session.goroutine(self.shell.chosen)
        for frame in goroutine.frames if goroutine else ():
            values = frame.values_of(name)
            for value in values:
                blocks = f", in one of {len(values)} blocks" if len(values) > 1 else ""
                self.screen.say(f"{name} = {stories.variable(frame.function, name, value)}   (in {frame.function}{blocks})")
                if is_channel(value):
                    self.one_channel(value)
            if values:
                return True
        return False

    def channels_called(self, name: str) -> bool:
        """Tells the channels that other replies call so; whether there are some."""
        found = self.shell.session.variables.named(name) if name.isidentifier() else []
        for channel in found:
            self.one_channel(channel)
        return bool(found)

    def expression(self, text: str) -> None:
        """Tells the value of an expression over variables of the chosen goroutine, each of the innermost frame that has it."""
        goroutine = self.shell.session.goroutine(self.shell.chosen)
        frames = goroutine.frames if goroutine else ()
        variable: Callable[[str], str] = lambda name: next((found for found in (it.value_of(name) for it in frames) if found), "")
        found = evaluated(text, self.shell.session, variable)
        if found.value:
            self.screen.say(f"{text[:SHOWN_TEXT]} = {Stories(self.shell.session).value(found.value)}")
        elif text.isidentifier():
            name = text[:SHOWN_TEXT]
            self.screen.say(f"{self.shell.chosen} has no variable '{name}' with a value here; 'bt' shows those it has", "error")
        else:
            self.screen.say(f"'{text[:SHOWN_TEXT]}' has no value: {found.why}", "error")

    def one_channel(self, name: str) -> None:
        channel = self.shell.session.channel(name)
        if channel is None:
            self.screen.say(f"there is no channel {name}; 'channels' lists them", "error")
        else:
            self.screen.say(f"{self.shell.session.name_of(name)}: {Stories(self.shell.session).channel(channel)}")

    # Steps.

    def history(self, words: list[str]) -> None:
        wanted = words[0] if words else str(SHOWN_STEPS)
        chosen = self.selected(wanted)
        if chosen is None:
            self.screen.say(
                "history wants a number, a goroutine, a channel or 'all': history 20, history g0.1, history g0/c1", "error"
            )
            return
        stories = Stories(self.shell.session)
        left_out = self.shell.session.length() - len(chosen)
        if (wanted.isdigit() or wanted == "all") and left_out > 0:
            self.screen.say(f"({left_out} steps before these)", "faint")
        self.shell.session.values.learn(chosen)
        for fact in chosen:
            self.screen.row(row(stories, self.shell.program, fact))
            if self.shell.interrupts.pending():
                return
        if not wanted.isdigit() or int(wanted) > len(chosen):
            self.tell_limit()

    def selected(self, wanted: str) -> Optional[list[Fact]]:
        """The steps that a word of `history` is about; none where it is no such word."""
        session = self.shell.session
        if wanted.isdigit():
            return session.facts.tail(min(int(wanted), NOTED)) if int(wanted) else []
        channels = [] if wanted == "all" or is_goroutine(wanted) else [wanted] if is_channel(wanted) else session.variables.named(wanted)
        if not channels and wanted != "all" and not is_goroutine(wanted):
            return None
        self.tell_reading()
        return [it for it in session.noted() if wanted in ("all", it.owner) or it.channel in channels]

    def direct(self, words: list[str]) -> None:
        if len(words) != 1 or not is_step(words[0]):
            self.screen.say("direct wants a step: direct g0.1#3; 'log' and 'history' list them", "error")
            return
        step, stories = words[0], Stories(self.shell.session)
        fact = self.shell.session.facts.of(step)
        if fact is None:
            self.screen.say(f"there is no step {step} in the log; 'log' and 'history' list them", "error")
            return
        self.about(stories, fact, "")
        edges = DirectCauses(self.shell.session).of(fact)
        for edge in edges:
            self.about(stories, edge.source, relation(edge, fact))
        if not edges:
            own = (
                f"; its own step before it is {step_of(fact.owner, step_number(step) - 1)}"
                if step_number(step) > 1
                else ""
            )
            self.screen.say(f"    it depends directly on no step of another goroutine{own}")

    def about(self, stories: Stories, fact: Fact, related: str) -> None:
        """A step, and what it was to another one."""
        self.screen.row(f"{'    ' if related else ''}{row(stories, self.shell.program, fact)}")
        if related:
            self.screen.say("        " + related, "faint")


def tell_step(shell: Desk, step: str) -> None:
    """A step that is worth taking back, and what goes with it."""
    fact = shell.session.facts.of(step)
    shell.screen.row(f"    {row(Stories(shell.session), shell.program, fact) if fact else step}")
    others = len(shell.session.preview(step)) - 1
    shell.screen.say(f"'back {step}' takes it back, {f'with {others} that depend on it' if others else 'alone'}")


def used(word: Word) -> str:
    return f"{word.use}{f' ({word.short})' if word.short else ''}"


def row(stories: Stories, program: Program, fact: Fact) -> str:
    """A step with its kind, line and statement, and what it did."""
    did, text = stories.step(fact), program.line(fact.line)
    shown = text if len(text) <= SHOWN_TEXT else text[: SHOWN_TEXT - 2] + ".."
    return f"{fact.step:<8} {fact.kind!s:<11} {program.shown(fact.line) or '':4}: {shown:<30} {did}".rstrip()
