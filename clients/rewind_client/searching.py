"""A search of all schedules from where a session stands, by `rewind --search`."""
from __future__ import annotations

import re
import subprocess
import time
from collections.abc import Callable, Sequence
from contextlib import AbstractContextManager
from dataclasses import dataclass
from enum import Enum
from itertools import groupby
from typing import NamedTuple, Optional

from .core import step_command
from .errors import Cancelled, ProcessError, RewindError
from .meanings import meaning_of_exit
from .process import never
from .session import Session

# So many states are searched at most, where the user names no number.
STATES = 1_000_000
TICK = 0.05
# What a sentence on a bad end says where it is no panic.
DEADLOCK = "deadlock"
# The sentence where there is no step to blame, since nothing but bad ends can be reached from the start.
HOPELESS = "no schedule of the program ends well"
# How many states were seen, in the sentence where no schedule ends badly.
SEEN = re.compile(r"all (\d+) states seen|its one state seen")


class Answer(Enum):
    """What a search tells, by the exit status of Rewind."""

    NONE_BAD = 0
    BAD = 4
    NOT_FINISHED = 5


@dataclass(frozen=True)
class Searched:
    """What came of a search: the answer, a sentence of Rewind, and the commands from the start to a bad end, where there is one."""

    answer: Answer
    sentence: str
    commands: tuple[str, ...] = ()

    @property
    def states(self) -> Optional[int]:
        """How many states were seen, where no schedule ends badly."""
        seen = SEEN.search(self.sentence)
        return int(seen[1] or 1) if seen else None


class Blamed(NamedTuple):
    """The step behind which no schedule ends well any more, or an empty text; and a sentence of Rewind."""

    step: str
    sentence: str

    @property
    def is_hopeless(self) -> bool:
        """Whether no schedule of the program ends well, so that no step is to blame."""
        return self.sentence == HOPELESS


class Run(NamedTuple):
    """A search that has ended: its exit status, and what it wrote."""

    status: int
    out: list[str]
    sentence: str


def search(
    rewind: str,
    path: str,
    commands: Sequence[str] = (),
    states: int = STATES,
    seconds: Optional[float] = None,
    cancelled: Callable[[], bool] = never,
) -> Searched:
    """Searches the source at `path`, from behind some commands.

    Raises Cancelled where the user stopped waiting, and ProcessError where Rewind gives none of its answers. A search that lasts
    longer than `seconds` is ended, and is not finished.
    """
    run = ran(rewind, ["--search", path, "--states", str(states)], commands, seconds, cancelled)
    if run is None:
        return Searched(Answer.NOT_FINISHED, f"not finished within {seconds:g} seconds")
    return Searched(Answer(run.status), run.sentence, tuple(run.out))


def ran(
    rewind: str, words: Sequence[str], commands: Sequence[str], seconds: Optional[float], cancelled: Callable[[], bool]
) -> Optional[Run]:
    """A search behind some commands; none where it has not ended in time."""
    pipe = subprocess.PIPE
    try:
        child = subprocess.Popen([rewind, *words, "--after", "-"], stdin=pipe, stdout=pipe, stderr=pipe, start_new_session=True)
    except (OSError, ValueError) as fault:
        raise ProcessError(f"{rewind} cannot be started: {fault}") from None
    try:
        return ended(rewind, child, "".join(line + "\n" for line in commands).encode(), seconds, cancelled)
    finally:
        if child.poll() is None:
            child.kill()
            child.communicate()


def ended(
    rewind: str, child: "subprocess.Popen[bytes]", script: bytes, seconds: Optional[float], cancelled: Callable[[], bool]
) -> Optional[Run]:
    """What a search has written, when it ends in time."""
    until = time.monotonic() + seconds if seconds is not None else None
    given: Optional[bytes] = script
    while True:
        try:
            out, said = child.communicate(given, TICK)
            break
        except subprocess.TimeoutExpired:
            given = None
            if cancelled():
                raise Cancelled("the search was not waited for") from None
            if until is not None and time.monotonic() > until:
                return None
    sentence = said.decode("utf-8", "replace").strip()
    if child.returncode not in {it.value for it in Answer}:
        raise ProcessError(f"{rewind} has ended: {meaning_of_exit(child.returncode, sentence)}")
    return Run(child.returncode, out.decode("utf-8", "replace").splitlines(), sentence)


def search_from(rewind: str, session: Session, states: int, cancelled: Callable[[], bool] = never) -> Searched:
    """Searches from where a session stands, which keeps the schedule that was found."""
    with copied(session) as copy:
        found = search(rewind, copy, steps_of(session), states, cancelled=cancelled)
    session.schedule = found.commands
    return found


def blame_from(
    rewind: str, session: Session, states: int, seconds: Optional[float] = None, cancelled: Callable[[], bool] = never
) -> Blamed:
    """Which step of a session's log is to blame for where it stands; no step where that takes more `seconds`."""
    with copied(session) as copy:
        run = ran(rewind, ["--blame", copy, "--states", str(states)], steps_of(session), seconds, cancelled)
    if run is None:
        return Blamed("", f"not finished within {seconds:g} seconds")
    return Blamed(run.out[0] if run.out else "", run.sentence)


def copied(session: Session) -> AbstractContextManager[str]:
    """The path of a copy of a session's source, which is there for a while."""
    if session.source is None:
        raise RewindError("the source of this session is not known")
    return session.source.copied()


def steps_of(session: Session) -> list[str]:
    """The steps of the log, as commands."""
    return [step_command(entry) for entry in session.log()]


def ahead(session: Session) -> list[str]:
    """The commands of the schedule that a search found, from where the session stands."""
    taken = steps_of(session)
    if not session.schedule:
        raise RewindError("no schedule is found yet: 'search' looks for one that ends badly")
    if list(session.schedule[: len(taken)]) != taken:
        raise RewindError("the steps are no longer those from which the search began: 'search' looks again")
    return list(session.schedule[len(taken) :])


def repeated(commands: Sequence[str]) -> list[str]:
    """Commands in words; the same one over and over is told once."""
    counts = ((command, len(list(same))) for command, same in groupby(commands))
    return [command if count == 1 else f"{command} ({count} times)" for command, count in counts]
