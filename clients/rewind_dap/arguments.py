"""The arguments of a request, each taken with its type."""
from __future__ import annotations

from typing import Any, Optional

from rewind_client.errors import RewindError


class BadRequest(RewindError):
    """A request that can't be done; the text says why, for the user."""


class Arguments:
    """The members of a JSON object; one of the wrong type is refused in words."""

    def __init__(self, members: Any, where: str = "arguments") -> None:
        if members is None:
            members = {}
        if not isinstance(members, dict):
            raise BadRequest(f"{where} must be an object")
        self.members: dict[str, Any] = members
        self.where = where

    def wrong(self, name: str, kind: str) -> BadRequest:
        return BadRequest(f"{self.where}: {name} must be {kind}")

    def text(self, name: str, default: Optional[str] = None) -> str:
        """A string; without a default it must be there."""
        value = self.members.get(name, default)
        if value is None and default is not None:
            return default
        if not isinstance(value, str):
            raise self.wrong(name, "a string")
        return value

    def flag(self, name: str, default: bool) -> bool:
        value = self.members.get(name)
        if value is None:
            return default
        if not isinstance(value, bool):
            raise self.wrong(name, "true or false")
        return value

    def number(self, name: str, default: Optional[int] = None, least: int = 0, most: int = 2**53) -> int:
        """A whole number from `least` to `most`; without a default it must be there."""
        value = self.members.get(name)
        if value is None and default is not None:
            return default
        if not isinstance(value, int) or isinstance(value, bool):
            raise self.wrong(name, "a whole number")
        if not least <= value <= most:
            raise BadRequest(f"{self.where}: {name} must lie between {least} and {most}")
        return value

    def seconds(self, name: str, default: float) -> float:
        """A number over 0 and up to a day."""
        value = self.members.get(name)
        if value is None:
            return default
        if not isinstance(value, (int, float)) or isinstance(value, bool):
            raise self.wrong(name, "a number of seconds")
        if not 0 < value <= 86_400:
            raise BadRequest(f"{self.where}: {name} must lie between 0 and 86400")
        return float(value)

    def object(self, name: str) -> Arguments:
        return Arguments(self.members.get(name), name)

    def objects(self, name: str) -> list[Arguments]:
        """A list of objects, empty where it is left out."""
        members = self.members.get(name)
        if members is None:
            return []
        if not isinstance(members, list):
            raise self.wrong(name, "a list")
        return [Arguments(member, name) for member in members]

    def texts(self, name: str) -> list[str]:
        """A list of strings, empty where it is left out."""
        members = self.members.get(name)
        if members is None:
            return []
        if not isinstance(members, list) or not all(isinstance(member, str) for member in members):
            raise self.wrong(name, "a list of strings")
        return members

    def has(self, name: str) -> bool:
        return self.members.get(name) is not None
