"""Which goroutines and channels there are. The names count up, and `show` and `chan` know each that has been made."""
from __future__ import annotations

from collections.abc import Callable, Sequence
from typing import TYPE_CHECKING

from .names import channel_of, channel_order, child_of, name_order
from .replies import Goroutine

if TYPE_CHECKING:
    from .session import Session

MAX_GOROUTINES = 10_000
MAX_CHANNELS = 10_000
# So many names behind the last one known are asked for at first, and then twice as many each time.
FIRST_PORTION = 2
LARGEST_PORTION = 1000

Name = Callable[[str, int], str]


class Counts:
    """How many goroutines each has started, or how many channels it has made, and behind how many steps that was so."""

    def __init__(self, name: Name) -> None:
        self.name = name
        self.of: dict[str, tuple[int, int]] = {}

    def names(self, goroutine: str) -> list[str]:
        return [self.name(goroutine, number) for number in range(1, self.of.get(goroutine, (0, 0))[1] + 1)]

    def count(self, goroutines: Sequence[Goroutine], are_there: Callable[[Sequence[str]], list[bool]], most: int) -> None:
        """Counts anew those of goroutines that have taken steps; each is counted on until there are so many."""
        changed = [it for it in goroutines if self.of.get(it.name, (-1, 0))[0] != it.steps]
        found = {it.name: self.of.get(it.name, (0, 0))[1] for it in changed}
        pending, portion = list(found), FIRST_PORTION
        while pending:
            asked = [(name, found[name] + more) for name in pending for more in range(1, portion + 1)]
            last: dict[str, int] = {}
            for (name, number), is_there in zip(asked, are_there([self.name(*it) for it in asked])):
                if is_there:
                    last[name] = number
            pending = [name for name, number in last.items() if number == found[name] + portion and number <= most]
            found.update(last)
            portion = min(2 * portion, LARGEST_PORTION)
        self.of.update({it.name: (it.steps, found[it.name]) for it in changed})


class Roster:
    """The names of the goroutines and channels of a session, at most so many and one more."""

    def __init__(self, session: Session) -> None:
        self.session = session
        self.version: int = -1
        self.names: list[str] = []
        self.forget()

    def forget(self) -> None:
        """Forgets all, where steps were taken back."""
        self.started, self.made = Counts(child_of), Counts(channel_of)
        self.version = -1

    def look(self) -> None:
        """Looks which goroutines there are now, those of a goroutine behind it."""
        if self.version == self.session.version:
            return
        found, level = ["g0"], ["g0"] if self.session.length() else []
        while level and len(found) <= MAX_GOROUTINES:
            self.started.count(self.session.goroutines(level), self.are_goroutines, MAX_GOROUTINES)
            level = [child for name in level for child in self.started.names(name)]
            found += level
        self.names = sorted(found, key=name_order)
        self.version = self.session.version

    def are_goroutines(self, names: Sequence[str]) -> list[bool]:
        self.session.look_at(names)
        return [self.session.shown[name] is not None for name in names]

    def are_channels(self, names: Sequence[str]) -> list[bool]:
        self.session.look_into(names)
        return [self.session.channels_shown[name] is not None for name in names]

    def goroutines(self) -> list[str]:
        """The names of the goroutines, in their order."""
        self.look()
        return self.names[:MAX_GOROUTINES]

    def all_channels(self) -> list[str]:
        names = self.goroutines()
        self.made.count(self.session.goroutines(names) if self.session.length() else [], self.are_channels, MAX_CHANNELS)
        return [channel for name in names for channel in self.made.names(name)]

    def channels(self) -> list[str]:
        """The names of the channels, by the goroutines that made them."""
        return sorted(self.all_channels(), key=channel_order)[:MAX_CHANNELS]

    def is_whole(self) -> bool:
        """Whether all goroutines and channels are named."""
        self.look()
        return len(self.names) <= MAX_GOROUTINES and len(self.all_channels()) <= MAX_CHANNELS
