"""Each growth inside one call refused in turn: what stands after it, and the same call made again with memory.

Every command of the example sessions, and of `kinds`, which has nearly every kind of step, is one case: its k-th growth is
refused, for k = 1, 2, .. until it meets none, and then once more with all growths after that in the same command.
In the short form the cases are the commands in SHORT. Each of those names a refusal, which must come of one of its growths at
least. Either the program ends with `rewind: memory`, and the replies up to there went out. Or the command is refused:

- `no N6`, `no Q2` and `no B6 0`: nothing is changed, and the same command gives what it gives with memory;
- `no B6 K IDS` of `back`: IDS is an end of what goes, the log lacks just these, and the same `back` takes the others;
- `no B6 K IDS` of `redo`: IDS is a beginning of what comes, and the same `redo` goes on;
- `ok K memory` of `run N`: K steps were taken, and `run` of the others goes on to the same end.

Or the reply is the one with memory, and so is all after it. 'Nothing is changed' is asked of every goroutine, channel and
text, the log, the console, `redo` and a `run`; where a part is done, of a session that takes the steps of the log anew.
Opening each example is a case too: it ends in `S8`, `P4`, `C11` or `rewind: memory`, or a refusal cannot be told. With workers
it also ends in `rewind: threads`, where a thread is not started.

All of it is done alone, and beside a worker. Then a desk answers the commands, and no step is granted. A session's commands from
its first grant on are left out.
"""
from __future__ import annotations

import re
from collections.abc import Callable, Mapping
from pathlib import Path
from typing import NamedTuple, Optional

import pytest

from support.program import NOTHING, Ended, Preloaded, Program
from support.replies import Step, asked, questions, replies_in, steps_of
from support.tally import Tally, cut

from .examples import examples, script_of, sessions

HERE = Path(__file__).parent
# What a command is called, and the refusal that must come of one growth in it at least.
Wanted = tuple[str, str]
UNCHANGED = (b"no N6", b"no Q2", b"no B6 0")
MEMORY = (3, b"rewind: memory\n")
NO_THREAD = (3, b"rewind: threads\n")
# Lines of sessions, each with what it does, and with the refusal that must come of one growth in it at least.
SHORT: dict[str, dict[int, Wanted]] = {
    "kinds": {
        1: ("step: make", "no N6"), 4: ("step: length", "no N6"), 6: ("step: call", "no N6"), 7: ("step: return", "no N6"),
        8: ("step: pure", "no N6"), 9: ("step: go", "no N6"), 15: ("step: default", "no N6"), 17: ("step: buffer", "no N6"),
        18: ("step: send-wait", "no N6"), 19: ("step: take", "no N6"), 23: ("step: recv-wait", "no N6"),
        24: ("step: hand", "no N6"), 28: ("step: select-wait", "no N6"), 29: ("step: meet", "no N6"),
        32: ("step: closed", "no N6"), 45: ("step: pick", "no N6"), 53: ("step: fault CloseOfClosed", "no N6"),
        57: ("deps", "no Q2"), 58: ("causes", "no Q2"), 59: ("show", "no Q2"), 63: ("text", "no Q2"),
        64: ("console", "no Q2"), 65: ("log", "no Q2"), 67: ("undo", "no B6 0"), 75: ("back go", "no B6 0"),
        77: ("back send", "no B6 0"), 79: ("back recv", "no B6 0"), 81: ("back var", "no B6 0"), 84: ("redo", "no B6 K"),
        87: ("break", "no Q2"), 90: ("run", "ok K memory"),
    },
    "hand_over": {8: ("step: exit", "no N6")},
    # Two receivers wait, and a select on three channels.
    "close_undone_with_its_queues": {16: ("step: close", "no N6"), 20: ("undo", "no B6 0")},
    "select_meets_select": {12: ("back STEP", "no B6 0")},
    "order_of_independent_prints": {6: ("order", "no B6 0")},
    # The value goes back into a buffer that a later send has filled as far as its memory goes. The print is back before that.
    "receive_goes_back_and_fills_the_buffer": {11: ("chan", "no Q2"), 12: ("back STEP", "no B6 K")},
}
OPENING = (b"rewind: S8\n", b"rewind: P4\n", b"rewind: C11\n")


class Wrong(Exception):
    """A promise that does not hold."""


def expect(holds: bool, what: str) -> None:
    if not holds:
        raise Wrong(what)


class Refusing(NamedTuple):
    """A program with or without workers, and the library under which its growths are refused."""

    program: Program
    preloaded: Preloaded

    @property
    def has_workers(self) -> bool:
        return bool(self.program.options)


class Refused(NamedTuple):
    """Which growth is refused: that number alone, or all from it on."""

    growth: int
    is_rest: bool

    def environment(self) -> dict[str, str]:
        return {"REFUSE_AT": str(self.growth), **({"REFUSE_REST": "1"} if self.is_rest else {})}

    def __str__(self) -> str:
        return f"growth {self.growth}{' and all after it' if self.is_rest else ''}"


def refusals(growths: int) -> list[Refused]:
    """Each growth refused alone, and with all after it."""
    return [Refused(growth, is_rest) for is_rest in (False, True) for growth in range(1, growths + 1)]


def growths_told(ended: Ended) -> int:
    """How many growths a run that counted them tells."""
    found = re.search(rb"growths (\d+)", ended.error)
    assert found, ended
    return int(found[1])


class Case:
    """A command after others, with what it does where there is memory."""

    def __init__(self, refusing: Refusing, source: bytes, commands: list[bytes], at: int) -> None:
        self.program, self.source = refusing.program, source
        self.environment = refusing.preloaded.environment
        self.before, self.command, self.place = commands[:at], commands[at], {"REFUSE_LINE": str(at + 1)}
        whole = replies_in(self.run(self.before + [b"log", self.command, b"log"]).output)
        self.reply, self.old_log, self.new_log = whole[at + 1], steps_of(whole[at]), steps_of(whole[at + 2])
        self.questions = questions(self.old_log) + questions(self.new_log)
        self.probe = self.questions + [b"redo", b"log", b"run 7", b"log"]
        self.first = replies_in(self.run(self.before).output)
        self.unchanged = replies_in(self.run(self.before + self.probe).output)[at:]
        self.changed = replies_in(self.run(self.before + [self.command] + self.probe).output)[at + 1 :]

    def run(self, commands: list[bytes], environment: Mapping[str, str] = NOTHING) -> Ended:
        return self.program.run(self.source, asked(commands), environment)

    def growths(self) -> int:
        return growths_told(self.run(self.before + [self.command], {"REFUSE_COUNT": "1", **self.place, **self.environment}))

    def refused(self, refused: Refused, after: list[bytes]) -> Ended:
        """The command with a growth refused, and other commands after it."""
        return self.run(self.before + [self.command] + after, {**refused.environment(), **self.place, **self.environment})

    def go_on(self, refused: Refused, command: bytes, after: list[bytes]) -> tuple[bytes, list[list[bytes]]]:
        """The replies where the command is refused, then this one is made with memory, and then others."""
        got = replies_in(self.refused(refused, [command] + after).output)
        return got[len(self.before) + 1][-1], got[len(self.before) + 2 :]

    def kind(self) -> str:
        """What the command is called in the table."""
        words, said = self.command.decode().split(), self.reply[-1].decode().split()
        if words[0] == "step":
            return "step: " + (" ".join(said[2:4] if said[2] != "pick" else said[2:3]) if said[0] == "ok" else "refused")
        if words[0] == "back":
            return "back " + (words[1] if len(words) > 2 else "STEP")
        return words[0] if said[0] != "?" else "rejected line"

    def judge(self, refused: Refused) -> str:
        """What became of a refused growth."""
        ended = self.refused(refused, self.probe)
        got, at = replies_in(ended.output), len(self.before)
        expect(got[:at] == self.first, "the replies before")
        if ended.status != 0:
            is_silent = refused.is_rest and (ended.status, ended.error) == (3, b"")
            expect((ended.status, ended.error) == MEMORY or is_silent, "the end")
            expect(asked(line for reply in self.first + [self.reply] for line in reply).startswith(ended.output), "what went out")
            return "rewind: memory"
        said, rest_of = got[at][-1], got[at + 1 :]
        if said in UNCHANGED:
            return self.judge_unchanged(refused, said, rest_of)
        if said.startswith(b"no B6 ") or said.endswith(b" memory"):
            return self.judge_part(refused, said, steps_of(rest_of[0]))
        expect(got[at] == self.reply and rest_of == self.changed, "a reply that is not the one with memory")
        return "as with memory"

    def judge_unchanged(self, refused: Refused, said: bytes, shown: list[list[bytes]]) -> str:
        expect(shown == self.unchanged, "a change")
        again, after = self.go_on(refused, self.command, self.probe)
        expect(again == self.reply[-1] and after == self.changed, "the same command made again")
        return said.decode()

    def judge_part(self, refused: Refused, said: bytes, log: list[Step]) -> str:
        """A part was done: which, and the state is that of the log's steps; the same command does the others."""
        words, all_words = said.decode().split(), self.reply[-1].decode().split()
        if words[0] == "ok":
            more, wanted = self.rest_of_run(int(words[1]), all_words, log)
        else:
            more, wanted = self.rest_of_steps(words[3:], all_words[2:], log)
        kept = replies_in(self.refused(refused, questions(log)).output)[len(self.before) + 1 :]
        expect(kept == self.anew(log), "the state after a part")
        again, after = self.go_on(refused, more, self.questions)
        expect(again.decode() == wanted and after == self.changed[: len(self.questions)], "the others")
        return "no B6 K" if words[0] == "no" else "ok K memory"

    def rest_of_run(self, count: int, all_words: list[str], log: list[Step]) -> tuple[bytes, str]:
        """The `run` of the steps that were not taken, and its reply."""
        expect(log == self.new_log[: len(self.old_log) + count], "the steps taken")
        wanted = f"ok {int(all_words[1]) - count} {' '.join(all_words[2:])}"
        return b"run %d" % (int(self.command.split()[1]) - count), wanted

    def rest_of_steps(self, part: list[str], steps: list[str], log: list[Step]) -> tuple[bytes, str]:
        """The same `back` or `redo`, and its reply, where a part of the steps is gone or back."""
        is_back, count = self.command.startswith(b"back"), len(part)
        left = steps[: len(steps) - count] if is_back else steps[count:]
        expect(part == (steps[len(left) :] if is_back else steps[:count]), "not an end of the steps, or a beginning")
        gone = set(part) if is_back else set(left)
        expect(log == [step for step in (self.old_log if is_back else self.new_log) if step.name not in gone], "the log")
        return self.command, " ".join(["ok", str(len(left)), *left])

    def anew(self, log: list[Step]) -> list[list[bytes]]:
        """What is told of a session that takes these steps."""
        return replies_in(self.run([step.command().encode() for step in log] + questions(log)).output)[len(log) :]


def refuse_all(tally: Tally, refusing: Refusing, name: str, at: int, wanted: Optional[Wanted] = None) -> None:
    """Refuses each growth in one command of a session, and looks whether the refusal that is wanted has come."""
    case, seen = Case(refusing, *session(name), at), Tally()
    for refused in refusals(case.growths()):
        try:
            seen.note(f"{case.kind()}: {case.judge(refused)}")
        except Wrong as wrong:
            seen.note(f"{case.kind()}: FAILED", f"{name}, line {at + 1}, {refused}: {wrong}: {cut(case.command, 60)}")
    if wanted and not seen.ends[": ".join(wanted)]:
        seen.failures.append(f"{name}, line {at + 1}: '{wanted[0]}' was never told '{wanted[1]}'")
    tally.add(seen)


def is_well_opened(refusing: Refusing, name: str, ended: Ended, refused: dict[str, str]) -> tuple[str, bool]:
    """What became of a refusal while the source was opened, and whether that is well; `ended` is the run without commands."""
    opener, source = refusing.program, examples()[name]
    if ended.status == 0:
        commands = asked(script_of(name))
        again = opener.run(source, commands, {**refusing.preloaded.environment, **refused})
        return "as with memory", again[:3] == opener.run(source, commands)[:3]
    if not ended.error:
        # Of a refused source, or under further refusals, there may be no memory for the line either.
        return f"no line, status {ended.status}", ended.status in (1, 3)
    if (ended.status, ended.error) == MEMORY or ended.status == 1 and ended.error in OPENING:
        return ended.error.decode().strip(), True
    if (ended.status, ended.error) == NO_THREAD:
        return ended.error.decode().strip(), refusing.has_workers
    return "as with memory", ended[:3] == opener.run(source)[:3]


def session(name: str) -> tuple[bytes, list[bytes]]:
    """The source and the commands of a session."""
    if name != "kinds":
        return examples()[name], script_of(name)
    return (HERE / "kinds.go").read_bytes(), (HERE / "kinds.script").read_bytes().split(b"\n")[:-1]


def count_of(refusing: Refusing, name: str) -> int:
    """How many commands of a session are cases: with workers those before its first grant."""
    lines = session(name)[1]
    grants = [at for at, line in enumerate(lines) if line.split()[0] in (b"free", b"turn")]
    return grants[0] if refusing.has_workers and grants else len(lines)


@pytest.fixture(scope="module", params=[0, 1], ids=["alone", "beside a worker"])
def refusing(request: pytest.FixtureRequest, rewind: str, preloaded: Preloaded) -> Refusing:
    return Refusing(Program(rewind, ["--workers", str(request.param)] if request.param else []), preloaded)


@pytest.mark.parametrize("name, line", [(name, line) for name, lines in SHORT.items() for line in lines])
def test_a_command(name: str, line: int, refusing: Refusing, told: Callable[[str], None]) -> None:
    tally = Tally()
    refuse_all(tally, refusing, name, line - 1, SHORT[name][line])
    told(tally.check())


@pytest.mark.full
@pytest.mark.timeout(3600)
@pytest.mark.parametrize("name", [*sessions(), "kinds"])
def test_each_command_of_a_session(name: str, refusing: Refusing, told: Callable[[str], None]) -> None:
    tally = Tally()
    for at in range(count_of(refusing, name)):
        refuse_all(tally, refusing, name, at)
    told(tally.check())


@pytest.mark.full
@pytest.mark.timeout(3600)
@pytest.mark.parametrize("name", examples())
def test_opening(name: str, refusing: Refusing, told: Callable[[str], None]) -> None:
    """The growths refused while a source is opened."""
    tally, opener, source = Tally(), refusing.program, examples()[name]
    environment = {"REFUSE_LINE": "0", **refusing.preloaded.environment}
    for refused in refusals(growths_told(opener.run(source, b"", {"REFUSE_COUNT": "1", **environment}))):
        place = {"REFUSE_LINE": "0", **refused.environment()}
        ended = opener.run(source, b"", {**refused.environment(), **environment})
        what, is_well = is_well_opened(refusing, name, ended, place)
        tally.note(f"open: {what}", None if is_well and not ended.output else f"opening {name}, {refused}: {ended}")
    told(tally.check())
