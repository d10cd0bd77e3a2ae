"""What the tests of a user's view share: a program is written, launched, moved and looked at."""
from __future__ import annotations

import os
import textwrap
from collections.abc import Iterator
from pathlib import Path
from typing import Any

import pytest

from .client import Client


class Desk:
    """A client with a folder for programs, and the commands that Rewind was given. Test classes inherit it."""

    @pytest.fixture(autouse=True)
    def desk(self, tmp_path: Path) -> Iterator[None]:
        self.folder = str(tmp_path)
        self.commands = os.path.join(self.folder, "commands")
        self.client = Client(commands=self.commands)
        self.others: list[Client] = []
        yield
        for client in (self.client, *self.others):
            client.close()

    def another(self) -> Client:
        """One more client, which is closed behind the test."""
        self.others.append(Client())
        return self.others[-1]

    def file(self, name: str, text: str) -> str:
        path = os.path.join(self.folder, name)
        with open(path, "w", encoding="utf-8") as file:
            file.write(textwrap.dedent(text))
        return path

    def start(self, program: str, *lines: int, **arguments: Any) -> None:
        self.client.launch(program, list(lines), **arguments)
        assert self.client.stop()["reason"] == "entry"

    def move(self, command: str, thread: int = 1, **more: Any) -> Any:
        """A movement: what the `stopped` event after it says; the events before that are in `client.passed`."""
        return self.client.move(command, {"threadId": thread, **more})

    def frames(self, thread: int = 1) -> list[tuple[str, int]]:
        body = self.client.body("stackTrace", {"threadId": thread})
        return [(frame["name"], frame["line"]) for frame in body["stackFrames"]]

    def frame(self, thread: int = 1) -> int:
        found: int = self.client.body("stackTrace", {"threadId": thread})["stackFrames"][0]["id"]
        return found

    def typed(self, text: str, **more: Any) -> str:
        """What the console answers."""
        answer: str = self.client.body("evaluate", {"expression": text, "context": "repl", **more})["result"]
        return answer

    def moved(self, text: str, **more: Any) -> Any:
        """A word of the console that moves the program: what the `stopped` event after it says."""
        self.typed(text, **more)
        return self.client.stop()

    def threads(self) -> dict[int, str]:
        return {one["id"]: one["name"] for one in self.client.body("threads")["threads"]}

    def given(self) -> list[str]:
        """The commands that Rewind was given so far."""
        with open(self.commands, encoding="utf-8") as file:
            return file.read().splitlines()

    def set_breakpoints(self, path: str, *wishes: Any) -> list[Any]:
        arguments = {"source": {"path": path}, "breakpoints": list(wishes)}
        found: list[Any] = self.client.body("setBreakpoints", arguments)["breakpoints"]
        return found

    def told(self, name: str) -> list[Any]:
        """The bodies of the events of a name that came in and were not waited for."""
        return [event["body"] for event in self.client.passed + self.client.events if event["event"] == name]
