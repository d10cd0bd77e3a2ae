"""What a program calls its channels: the variable that got a channel first, or one that holds it."""
from __future__ import annotations

from typing import TYPE_CHECKING

from .names import channel_maker, channel_of, name_order, step_number, step_of, step_owner
from .replies import Goroutine, KindWord

if TYPE_CHECKING:
    from .session import Session

# So many steps behind the one that made a channel, a variable has got it.
MOST_BEHIND = 4


class ChannelNames:
    """The variables of a session's channels."""

    def __init__(self, session: Session) -> None:
        self.session = session
        self.forget()

    def forget(self) -> None:
        """Forgets all, where steps were taken back."""
        self.first: dict[str, str] = {}
        self.renew(-1)

    def renew(self, version: int) -> None:
        """Forgets what the next steps may change: which channels no variable has got yet, and which step made each."""
        self.version = version
        self.missed: set[str] = set()
        self.makes: dict[str, str] = {}

    def of(self, channel: str) -> str:
        """The variable that held a channel first, else one that holds it now; an empty text where there is none."""
        found = self.first_of(channel)
        maker = channel_maker(channel)
        for goroutine in sorted(self.session.goroutines(), key=lambda it: (it.name != maker, name_order(it.name))) if not found else []:
            found = found or holder_of(goroutine, channel)
        return found

    def named(self, variable: str) -> list[str]:
        """The channels that a variable of this name held first."""
        return [name for name in self.session.channel_names() if self.of(name) == variable]

    def first_of(self, channel: str) -> str:
        """The variable that got a channel behind one of the next steps of its maker; it is not looked for in a long log."""
        if self.version != self.session.version:
            self.renew(self.session.version)
        if channel not in self.first and channel not in self.missed and self.session.is_noted():
            found = self.looked_for(channel)
            if found:
                self.first[channel] = found
            else:
                self.missed.add(channel)
        return self.first.get(channel, "")

    def looked_for(self, channel: str) -> str:
        self.makes = self.makes or self.all_makes()
        if channel not in self.makes:
            return ""
        maker, number = channel_maker(channel), step_number(self.makes[channel])
        behind = self.session.facts.of_all([step_of(maker, number + more) for more in range(1, MOST_BEHIND + 1)])
        shown = (self.session.shown_at(self.session.place(it.step), maker) for it in behind if it.given)
        return next((held for held in (holder_of(it, channel) for it in shown if it) if held), "")

    def all_makes(self) -> dict[str, str]:
        """The step that made each channel."""
        counts: dict[str, int] = {}
        found = {}
        for entry in self.session.log():
            if entry.kind.word is KindWord.MAKE:
                owner = step_owner(entry.step)
                counts[owner] = counts.get(owner, 0) + 1
                found[channel_of(owner, counts[owner])] = entry.step
        return found


def holder_of(goroutine: Goroutine, channel: str) -> str:
    """The variable of a goroutine that holds a channel, in its outermost frame; an empty text where there is none."""
    frames = reversed(goroutine.frames)
    return next((it.name for frame in frames for it in frame.variables if it.value == channel), "")
