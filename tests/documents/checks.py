"""What a document says beside what there is: the differences, each with its place."""
from __future__ import annotations

import difflib
from collections.abc import Callable, Iterable

LONGEST = 300


def short(value: object) -> str:
    """A value on one line, cut where it is long."""
    text = value if isinstance(value, str) else repr(value)
    text = text.replace("\n", "\\n")
    return text if len(text) <= LONGEST else text[:LONGEST] + " .."


class Checks:
    """What was compared so far. A place is a document with a line, as `docs/SESSIONS.md:12`."""

    def __init__(self) -> None:
        self.compared = 0
        self.faults: list[str] = []
        self.skipped: list[str] = []

    def fail(self, place: str, words: str) -> None:
        self.compared += 1
        self.faults.append(f"{place}: {words}")

    def same(self, place: str, what: str, wanted: object, got: object) -> bool:
        """Whether `got` is what the document says."""
        return self.holds(place, wanted == got, f"{what}: wanted {short(repr(wanted))}, got {short(repr(got))}")

    def holds(self, place: str, held: object, otherwise: str) -> bool:
        """Whether something holds; `otherwise` says what is wrong where it does not."""
        if not held:
            self.fail(place, otherwise)
            return False
        self.compared += 1
        return True

    def same_lines(self, place_of: Callable[[int], str], what: str, wanted: list[str], got: list[str]) -> None:
        """Compares lines, and tells each stretch that differs; `place_of` gives the place of a line by its number from 0."""
        self.compared += 1
        for tag, first, last, start, end in difflib.SequenceMatcher(None, wanted, got, False).get_opcodes():
            if tag != "equal":
                want, found = "\n".join(wanted[first:last]), "\n".join(got[start:end])
                told = [short(repr(it)) if it else "nothing" for it in (want, found)]
                self.faults.append(f"{place_of(first)}: {what}: wanted {told[0]}, got {told[1]}")

    def same_sets(self, place: str, what: str, wanted: Iterable[str], got: Iterable[str]) -> None:
        """Compares sets of names, and tells each that is on one side alone."""
        want, found = set(wanted), set(got)
        for name in sorted(want - found):
            self.fail(place, f"{what}: {name} is missing")
        for name in sorted(found - want):
            self.fail(place, f"{what}: {name} is not one")
        self.compared += len(want & found)

    def skip(self, place: str, reason: str) -> None:
        """Notes what is not compared, with the reason."""
        self.skipped.append(f"{place}: {reason}")

    def close(self) -> str:
        """Fails with all differences, where there are some; else how much was compared."""
        assert not self.faults, "\n".join(self.faults)
        return f"{self.compared} compared" + "".join(f"; not {it}" for it in self.skipped)
