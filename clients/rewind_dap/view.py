"""What an editor sees of a session: goroutines as threads, and their frames.

Everything is asked of Rewind when an editor wants it, and kept until a step is taken or taken back.
"""
from __future__ import annotations

from typing import Any, NamedTuple, Optional

from rewind_client.core import Refused
from rewind_client.errors import ProcessError
from rewind_client.replies import Frame, Goroutine, State
from rewind_client.session import Session

from .arguments import BadRequest
from .variables import Variables

Body = dict[str, Any]

MAX_THREADS = 1000


class FramePlace(NamedTuple):
    goroutine: Goroutine
    depth: int


class View:
    """Threads, frames and variables, by the numbers that the protocol wants."""

    def __init__(self, session: Session, described: Body, first: tuple[int, int], last_number: int) -> None:
        """`described` is the source as the protocol describes it, `first` how the editor counts lines and columns.

        The numbers up to `last_number` were given before.
        """
        self.session = session
        self.described = described
        self.first_line, self.first_column = first
        self.names: list[str] = []
        self.numbers: dict[str, int] = {}
        self.last_number = last_number
        self.seen = -1
        self.forget()

    def forget(self) -> None:
        """Drops the numbers that were given before the last step."""
        self.seen = self.session.version
        self.lines: dict[str, list[int]] = {}
        self.frames: dict[int, FramePlace] = {}
        # The goroutine of each list of variables of a frame.
        self.owners: dict[int, str] = {}
        self.values = Variables(self.session, self.next_number)

    def renew(self) -> None:
        if self.seen != self.session.version:
            self.forget()

    def next_number(self) -> int:
        """A number for a frame or a list of variables, which is never given twice."""
        self.last_number += 1
        return self.last_number

    # Goroutines as threads.

    def thread_number(self, goroutine: str) -> int:
        """The number of a thread, which is that of its goroutine as long as the session lives.

        Those that are new get theirs in the order of their names.
        """
        if goroutine not in self.numbers:
            for name in self.names_now() + [goroutine]:
                if name not in self.numbers:
                    self.names.append(name)
                    self.numbers[name] = len(self.names)
        return self.numbers[goroutine]

    def names_now(self) -> list[str]:
        """The names of the goroutines that are listed; none where Rewind refuses to tell them."""
        try:
            return self.listed("g0")
        except Refused:
            return []

    def listed(self, focus: str) -> list[str]:
        """The goroutines that are told: the first MAX_THREADS, and the one that is looked at, if it is there."""
        names = self.session.goroutine_names()
        first = names[:MAX_THREADS]
        return first + [focus] if focus not in first and self.session.goroutine(focus) else first

    def goroutine_of(self, thread: int) -> Goroutine:
        """The goroutine of a thread as it stands now."""
        name = self.names[thread - 1] if 0 < thread <= len(self.names) else ""
        goroutine = self.session.goroutine(name) if name else None
        if goroutine is None:
            raise BadRequest(f"there is no thread {thread}")
        return goroutine

    def threads(self, focus: str) -> list[Body]:
        goroutines = self.session.goroutines(self.listed(focus))
        return [{"id": self.thread_number(one.name), "name": thread_name(one)} for one in goroutines]

    # Frames.

    def places(self, goroutine: Goroutine) -> list[FramePlace]:
        """The frames of a goroutine, the innermost first; one that is done has one that says so."""
        return [FramePlace(goroutine, depth) for depth in range(max(1, len(goroutine.frames)))]

    def stack(self, places: list[FramePlace]) -> list[Body]:
        """Some frames of a goroutine, as the protocol tells them."""
        self.renew()
        return [self.outer_frame(place) if place.depth else self.inner_frame(place) for place in places]

    def inner_frame(self, place: FramePlace) -> Body:
        goroutine = place.goroutine
        if not goroutine.frames:
            return self.frame(place, goroutine.name + " has ended", 0, "label")
        return self.frame(place, goroutine.frames[0].function, goroutine.line, "normal")

    def outer_frame(self, place: FramePlace) -> Body:
        """An outer frame; where its line can't be told it is shown at the heading of its function."""
        goroutine = place.goroutine
        if goroutine.name not in self.lines:
            self.lines[goroutine.name] = self.lines_of(goroutine)
        function, line = goroutine.frames[place.depth].function, self.lines[goroutine.name][place.depth]
        if line:
            return self.frame(place, function, line, "normal")
        return self.frame(place, function + " (line not known)", self.session.program.heading(function), "subtle")

    def lines_of(self, goroutine: Goroutine) -> list[int]:
        """The line of each frame, the innermost first; 0 where it can't be told."""
        try:
            return [place.line for place in self.session.places(goroutine)]
        except ProcessError:
            if self.session.core.process.ended is not None:
                raise
            return [0] * len(goroutine.frames)

    def frame(self, place: FramePlace, name: str, line: int, hint: str) -> Body:
        number = self.next_number()
        self.frames[number] = place
        body: Body = {"id": number, "name": name, "line": 0, "column": 0, "presentationHint": hint}
        shown = self.session.program.shown(line)
        if shown:
            body.update({"line": shown + self.first_line - 1, "column": self.first_column, "source": self.described})
        elif line:
            body.update({"name": f"{name} (added by rewind-carry)", "presentationHint": "subtle"})
        return body

    def place(self, number: int) -> FramePlace:
        self.renew()
        if number not in self.frames:
            raise BadRequest(f"there is no frame {number} in the present state")
        return self.frames[number]

    def goroutine_at(self, number: int) -> Optional[Goroutine]:
        """The goroutine of a frame; none where there is no such frame in the present state."""
        self.renew()
        return self.frames[number].goroutine if number in self.frames else None

    def frame_at(self, number: int) -> Optional[Frame]:
        """The frame of a number, with its variables; none where its goroutine is done."""
        place = self.place(number)
        return place.goroutine.frames[place.depth] if place.goroutine.frames else None

    # Scopes and variables.

    def scopes(self, number: int) -> list[Body]:
        place = self.place(number)
        values = self.values
        variables = values.scope("Variables", False, lambda: self.of_place(place), "locals")
        self.owners[variables["variablesReference"]] = place.goroutine.name
        return [
            variables,
            values.scope("Goroutine", False, lambda: values.of_goroutine(place.goroutine)),
            values.scope("Channels", True, values.of_channels),
        ]

    def current(self) -> Variables:
        """The lists of the present state."""
        self.renew()
        return self.values

    def of_frame(self, number: int) -> list[Body]:
        """The variables of the frame of a number."""
        return self.of_place(self.place(number))

    def of_place(self, place: FramePlace) -> list[Body]:
        frames = place.goroutine.frames
        return self.values.of_frame(frames[place.depth].function, frames[place.depth].variables) if frames else []

    # In words.


def thread_name(goroutine: Goroutine) -> str:
    """How a goroutine is listed: `g0.1 deposit, waiting at line 15`."""
    if goroutine.state is State.DONE:
        return goroutine.name + ", done"
    return f"{goroutine.name} {goroutine.frames[0].function}, {goroutine.state.value} at line {goroutine.line}"
