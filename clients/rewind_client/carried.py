"""Real Go: what `rewind-carry` makes of a source that Rewind refuses."""
from __future__ import annotations

import json
import os
import shutil
import subprocess
from collections.abc import Iterable, Sequence
from typing import Any, NamedTuple, Optional

from .errors import SourceRefused
from .finding import REPOSITORY, is_program
from .program import Program
from .texts import Texts

SECONDS = 20
LEFT, CHANGED = "left", "changed"
# What Go itself says against a source is no obstacle of carrying.
OF_GO = frozenset(("go", "syntax"))


class CarriedProgram(Program):
    """A program that was carried over. Where a line comes from the source, its number and its text are those of the source."""

    def __init__(self, told: dict[str, Any], source: bytes, path: str) -> None:
        super().__init__(told["text"].encode("utf-8"), path)
        self.written = source
        self.source_lines = source.decode("utf-8", "replace").split("\n")
        self.sources: dict[int, int] = {}
        self.places: dict[int, int] = {}
        self.texts = Texts(told)
        self.moves: dict[int, str] = {}
        for place in told["places"]:
            self.sources.setdefault(place["line"], place["source"])
            self.places.setdefault(place["source"], place["line"])
            if "moves" in place:
                self.moves[place["line"]] = place["moves"]
        self.changes = sum(note["kind"] == CHANGED for note in told["notes"])

    def line(self, number: int) -> str:
        """The text of a line; that of a function that stands elsewhere in the source tells its line there."""
        source = self.sources.get(number)
        return super().line(number) if source is None else " ".join(self.source_lines[source - 1].split())

    @property
    def shown_lines(self) -> list[str]:
        return self.source_lines

    def shown(self, line: int) -> int:
        return self.sources.get(line, 0)

    def kind_of(self, function: str, name: str) -> str:
        return self.texts.kind(function, name)

    def kind_moved(self, lines: Iterable[int]) -> str:
        return next((self.moves.get(line, "") for line in lines if line in self.sources), "")

    def value(self, kind: str, value: str) -> str:
        return self.texts.shown(kind, value)

    def where(self, line: int) -> str:
        source = self.shown(line)
        return f"line {source}" if source else f"line {line} of what is run"

    def outside(self, functions: Sequence[str], line: int) -> tuple[Sequence[str], int]:
        while len(functions) > 1 and line and line not in self.sources:
            calls = self.calling_lines(functions[1], functions[0])
            if len(calls) != 1:
                break
            functions, line = functions[1:], calls[0]
        return functions, line

    def statement_at(self, line: int) -> Optional[int]:
        """The line on which a statement of this line of the source begins, or of the next one."""
        last = len(self.source_lines)
        found = next((self.places[it] for it in range(line, last + 1) if self.places.get(it) in self.statements), None)
        return found if found or line <= last else super().statement_at(line)

    def told(self) -> str:
        """One line that says what was done."""
        name = os.path.basename(self.path)
        changed = "" if not self.changes else f", in {self.changes} {'place' if self.changes == 1 else 'places'} with a change of meaning"
        return f"{name} is Go that was carried over{changed}: 'rewind-carry {name}' tells what became of it"


class Carrying(NamedTuple):
    """A program that was carried over, or what stands against that, a line each."""

    program: Optional[CarriedProgram]
    left: tuple[str, ...] = ()


def find_carry() -> Optional[str]:
    """The `rewind-carry` to take: that of `$REWIND_CARRY`, the one in bin of the repository, or the one on the path."""
    named = os.environ.get("REWIND_CARRY")
    if named is not None:
        return named if is_program(named) else None
    beside = os.path.join(REPOSITORY, "bin", "rewind-carry")
    return beside if is_program(beside) else shutil.which("rewind-carry")


def carry(path: str, name: str = "") -> Optional[Carrying]:
    """Carries a source over, which the user calls `name`; nothing where no `rewind-carry` is there, or it does not know the source."""
    tool = find_carry()
    try:
        with open(path, "rb") as file:
            source = file.read()
        done = subprocess.run([tool or "", path, "--json"], capture_output=True, timeout=SECONDS, check=False)
        told = json.loads(done.stdout)
    except (OSError, ValueError, subprocess.SubprocessError):
        return None
    if told["carried"]:
        return Carrying(CarriedProgram(told, source, name or path))
    notes = [note for note in told["notes"] if note["kind"] == LEFT]
    if any(note["rule"] in OF_GO for note in notes):
        return None
    return Carrying(None, tuple(obstacle(note) for note in notes))


def left_of(refused: SourceRefused) -> list[str]:
    """What is told of the places that are not carried over, where there are some."""
    if not refused.left:
        return []
    heading = "As Go it cannot be carried over whole. These places are not carried:"
    return [heading, *(f"  {line}" for line in refused.left)]


def obstacle(note: dict[str, Any]) -> str:
    advice = f"; {note['advice']}" if note.get("advice") else ""
    return f"{note['line']}:{note['column']}: {note['what']}{advice}"
