"""Numbers that stand for texts in a program that was carried over, as the list of `rewind-carry` tells them."""
from __future__ import annotations

import json
from typing import Any, Optional

# A made text is -(values * ROOM + number of its form).
ROOM = 1000
# How deeply texts may lie in texts that are shown.
DEEPEST = 8


class Texts:
    """The texts of a carried program: those that are known, and the forms of those that it makes."""

    def __init__(self, told: dict[str, Any]) -> None:
        self.known: dict[str, list[str]] = {"text": told.get("texts") or [], "error": told.get("errors") or []}
        self.forms: list[dict[str, Any]] = told.get("forms") or []
        self.variables: dict[str, dict[str, str]] = told.get("variables") or {}

    def kind(self, function: str, name: str) -> str:
        """What a variable stands for, or the values of its channel: `text`, `error`, or nothing."""
        return self.variables.get(function, {}).get(name, "")

    def shown(self, kind: str, value: str) -> str:
        """A value that stands for a text or an error in quotes; any other as it is. An error that is none is `nil`."""
        if kind not in self.known or not value.lstrip("-").isdigit():
            return value
        if kind == "error" and value == "0":
            return "nil"
        text = self.text(kind, int(value))
        return value if text is None else json.dumps(text, ensure_ascii=False)

    def text(self, kind: str, number: int, depth: int = 0) -> Optional[str]:
        """The text of a number; nothing where the number stands for none."""
        if number >= 0:
            return self.known[kind][number] if number < len(self.known[kind]) else None
        values, at = divmod(-number, ROOM)
        if not 0 < at <= len(self.forms) or depth > DEEPEST:
            return None
        form = self.forms[at - 1]
        kinds = [part["value"] for part in form["parts"] if "value" in part]
        found: list[str] = []
        for one in reversed(kinds):
            values, folded = divmod(values, form["most"])
            part = self.part(one, -(folded + 1) // 2 if folded % 2 else folded // 2, depth)
            if part is None:
                return None
            found.insert(0, part)
        return "".join(found.pop(0) if "value" in part else part.get("text", "") for part in form["parts"])

    def part(self, kind: str, number: int, depth: int) -> Optional[str]:
        """A value in a made text."""
        if kind == "truth":
            return "true" if number else "false"
        return str(number) if kind == "number" else self.text(kind, number, depth + 1)
