"""A program of ordinary Go in an editor: it is carried over, and all lines are those of the user's file."""
from __future__ import annotations

import os
import subprocess
from collections.abc import Iterator
from typing import Any

import pytest

from .client import REPOSITORY
from .desk import Desk

LOCKS = """\
package main

import "sync"

func main() {
	var a, b sync.Mutex
	var wg sync.WaitGroup
	wg.Add(2)
	go func() {
		defer wg.Done()
		a.Lock()
		b.Lock()
		b.Unlock()
		a.Unlock()
	}()
	go func() {
		defer wg.Done()
		b.Lock()
		a.Lock()
		a.Unlock()
		b.Unlock()
	}()
	wg.Wait()
}
"""

SAYS = """\
package main

import (
	"errors"
	"fmt"
)

func ask(name string, n int, err error, out chan string) {
	out <- fmt.Sprintf("%s-%d", name, n)
	out <- name
	fmt.Println(err)
}

func main() {
	out := make(chan string, 1)
	ask("bob", -2, errors.New("none left"), out)
}
"""


@pytest.fixture(scope="module", autouse=True)
def carry() -> Iterator[None]:
    """The tool is built of its sources as they are now, and the adapter takes it."""
    subprocess.run(["make", "-s", "carry"], cwd=REPOSITORY, check=True)
    with pytest.MonkeyPatch.context() as settings:
        settings.setenv("REWIND_CARRY", os.path.join(REPOSITORY, "bin", "rewind-carry"))
        yield


class TestCarried(Desk):
    def test_lines_of_the_source(self) -> None:
        path = self.file("locks.go", LOCKS)
        self.client.body("initialize", {"adapterID": "rewind"})
        self.client.body("launch", {"program": path})
        assert "locks.go is Go that was carried over" in self.client.output()
        self.set_breakpoints(path, {"line": 12})
        self.client.body("configurationDone")
        assert self.client.stop()["reason"] == "entry"
        stopped = self.move("continue")
        assert stopped["reason"] == "breakpoint"
        assert self.frames(stopped["threadId"]) == [("main_func1", 12)]

    def test_a_breakpoint_is_moved(self) -> None:
        path = self.file("locks.go", LOCKS)
        self.start(path)
        found = self.set_breakpoints(path, {"line": 18}, {"line": 3})
        assert [(one["verified"], one["line"]) for one in found] == [(True, 18), (True, 6)]

    def test_a_frame_that_was_added(self) -> None:
        """Within a function that carrying added the frame has no line; the one around it has that of the source."""
        path = self.file("locks.go", LOCKS)
        self.start(path)
        self.typed("run 27")
        self.typed("step g0.2")
        self.typed("run 5000")
        assert self.frames() == [("wait_group_wait (added by rewind-carry)", 0), ("main", 23)]
        why = self.typed("why")
        assert "at line 12: b.Lock()" in why and "at line 19: a.Lock()" in why and "main, line 23: wg.Wait()" in why, why

    def test_texts(self) -> None:
        """A number that stands for a text is shown as its text, in a variable, in a channel and where one waits to send it."""
        self.start(self.file("says.go", SAYS))
        self.typed("step g0")
        self.typed("run 5000")
        frame = self.client.body("stackTrace", {"threadId": 1})["stackFrames"][0]["id"]
        scopes = self.client.body("scopes", {"frameId": frame})["scopes"]
        assert self.values(scopes[0])["name"] == ('"bob"', "string")
        assert self.values(scopes[0])["err"] == ('"none left"', "error")
        assert self.client.body("evaluate", {"expression": "name", "frameId": frame, "context": "watch"})["result"] == '"bob"'
        out = next(it for it in self.client.body("variables", scopes[0])["variables"] if it["name"] == "out")
        parts = {it["name"]: it for it in self.client.body("variables", out)["variables"]}
        assert self.values(parts["items"]) == {"[0]": ('"bob--2"', "string")}
        assert self.values(parts["senders"]) == {"g0": ('"bob"', "string")}

    def values(self, of: Any) -> dict[str, tuple[str, str]]:
        """The values and the types of a list of variables."""
        return {it["name"]: (it["value"], it["type"]) for it in self.client.body("variables", of)["variables"]}
