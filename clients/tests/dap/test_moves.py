"""Steps and runs in both directions, breakpoints, and what an editor is told of them."""
import os
import sys
from typing import Any

import pytest

from .client import DATA, REWIND
from .desk import Desk

RECURSION = """\
package main

func fib(n int) int {
	if n < 2 {
		return n
	}
	return fib(n-1) + fib(n-2)
}

func twice(n int) int {
	return n * 2
}

func main() {
	a := fib(5)
	b := twice(a) +
		twice(3)
	println(a, b)
	println(fib(twice(2)))
}
"""

# Before line 9 come 30,000 steps: one for x, one for i, three for each turn, and the last condition.
LOOP = """\
package main

func main() {
	x := 0
	for i := 0; i < 9999; i++ {
		x = x + i
	}

	println(x)
}
"""

ENDLESS = "package main\n\nfunc main() {\n\tx := 0\n\tfor {\n\t\tx++\n\t}\n}\n"

SLOW = f"""\
#!{sys.executable}
import subprocess, sys, time
child = subprocess.Popen([{REWIND!r}] + sys.argv[1:], stdin=subprocess.PIPE)
for line in sys.stdin.buffer:
    time.sleep(0.05 if line.startswith(b"run") else 0)
    child.stdin.write(line)
    child.stdin.flush()
"""


class TestMoves(Desk):
    def test_next_passes_calls_and_step_in_enters_them(self) -> None:
        self.start(self.file("r.go", RECURSION))
        assert self.frames() == [("main", 15)]
        self.move("next")
        assert self.frames() == [("main", 16)]
        self.move("stepIn")
        assert self.frames() == [("twice", 11), ("main", 16)]
        self.move("stepOut")
        assert self.frames() == [("main", 16)]
        self.move("next")
        assert self.frames() == [("main", 18)]
        self.move("next")
        assert self.client.output() == ""
        assert self.frames() == [("main", 19)]
        assert self.move("next")["description"] == "After g0#82 pure"
        assert self.move("next")["reason"] == "ended"
        assert self.frames() == [("g0 has ended", 0)]

    def test_lines_of_outer_frames(self) -> None:
        self.start(self.file("r.go", RECURSION), 4)
        assert self.move("next")["reason"] == "breakpoint"
        assert self.frames() == [("fib", 4), ("main", 15)]
        self.move("continue")
        assert self.frames() == [("fib", 4), ("fib", 7), ("main", 15)]
        self.client.body("evaluate", {"expression": "clear 4", "context": "repl"})
        self.client.body("evaluate", {"expression": "break 11", "context": "repl"})
        for line in (16, 16, 19):
            self.move("continue")
            assert self.frames() == [("twice", 11), ("main", line)]

    def test_parts_of_a_stack_and_of_variables(self) -> None:
        self.start(self.file("r.go", RECURSION), 5)
        self.move("continue")
        body = self.client.body("stackTrace", {"threadId": 1, "startFrame": 1, "levels": 2})
        assert (body["totalFrames"], [frame["name"] for frame in body["stackFrames"]]) == (6, ["fib", "fib"])

    def test_a_breakpoint_between_two_portions_is_met(self) -> None:
        self.start(self.file("l.go", LOOP), 9)
        assert self.move("continue")["reason"] == "breakpoint"
        reply = self.client.body("evaluate", {"expression": "show g0", "context": "repl"})["result"]
        assert reply.split("\n")[0] == "| g0 ready 30000 line 9"
        assert self.client.ask("rewind/redo")["message"] == "there is nothing to redo (no B5)"
        assert self.move("continue")["reason"] == "ended"
        assert self.move("reverseContinue")["reason"] == "breakpoint"
        assert self.frames() == [("main", 9)]

    def test_back_to_the_last_step_at_a_breakpoint(self) -> None:
        self.start(self.file("l.go", LOOP), 6)
        for _ in range(3):
            self.move("continue")
        steps = []
        for _ in range(2):
            steps.append(self.move("reverseContinue")["description"])
        assert steps == ["Breakpoint on line 6, before g0#7", "Breakpoint on line 6, before g0#4"]
        assert self.move("reverseContinue")["description"] == "The start of the program"
        assert self.move("stepBack")["description"] == "The start of the program"

    def test_pause_and_what_is_refused_while_the_program_runs(self) -> None:
        slow = self.file("slow", SLOW)
        os.chmod(slow, 0o755)
        self.start(self.file("e.go", ENDLESS), rewind=slow)
        self.client.body("continue", {"threadId": 1})
        for command in ("next", "stackTrace", "rewind/back", "continue"):
            assert self.client.ask(command, {"threadId": 1})["message"] == "the program runs: pause it first"
        changing = self.client.ask("evaluate", {"expression": "undo", "context": "repl"})
        assert changing["message"] == "the program runs: pause it first"
        assert len(self.client.body("threads")["threads"]) == 1
        self.client.body("pause", {"threadId": 1})
        assert self.client.stop()["reason"] == "pause"
        assert self.move("stepIn")["reason"] == "step"

    def test_a_full_log(self) -> None:
        self.start(self.file("e.go", ENDLESS))
        assert self.move("continue")["description"] == "The log is full: take steps back to go on"
        assert "no Q1" in self.move("stepIn")["description"]
        assert self.move("stepBack")["description"] == "Took back g0#1000000"

    def test_a_deadlock_in_words(self) -> None:
        self.start("deadlock.go")
        stop = self.move("continue")
        assert (stop["reason"], stop["text"]) == ("deadlock", "fatal error: all goroutines are asleep - deadlock!")
        assert self.client.ask("exceptionInfo", {"threadId": 1})["success"] is False

    def test_the_output_of_a_deadlock(self) -> None:
        self.client.launch("deadlock.go", stopOnEntry=False)
        wanted = "fatal error: all goroutines are asleep - deadlock!\n"
        wanted += "g0 waits to receive from done (g0/c3) at line 18: <-done\n"
        wanted += "    it waits for g0.1 or g0.2, which may still send to it\n"
        wanted += "g0.1 waits to receive from to (g0/c2) at line 5: y := <-to\n"
        wanted += "    g0.2, which may still send to it, took the last item of to at line 4: x := <-from ('back g0.2#1' takes that back)\n"
        wanted += "g0.2 waits to receive from to (g0/c1) at line 5: y := <-to\n"
        wanted += "    g0.1, which may still send to it, took the last item of to at line 4: x := <-from ('back g0.1#1' takes that back)\n"
        wanted += "A cycle: g0.1 waits for g0.2, g0.2 waits for g0.1.\n"
        assert self.client.event("output")["body"] == {"category": "stderr", "output": wanted}

    def test_a_fault_in_words_of_go(self) -> None:
        self.start("send_on_closed.go")
        stop = self.move("continue")
        assert (stop["reason"], stop["threadId"]) == ("exception", 2)
        info = self.client.body("exceptionInfo", {"threadId": 2})
        assert info["exceptionId"] == "SendOnClosed"
        assert info["description"] == "panic: send on closed channel"
        assert "has ended, or a fault stopped it (no N1)" in self.move("stepIn", 2)["description"]
        assert self.client.body("rewind/back", {"step": "g0#6"})["steps"] == ["g0#6", "g0#7", "g0.1#6"]
        assert self.client.stop()["threadId"] == 1
        self.client.body("rewind/redo")
        assert self.client.stop()["reason"] == "exception"

    def test_lines_taken_back_and_moved(self) -> None:
        self.client.launch("buffered_channel.go", stopOnEntry=False)
        told = [self.client.event("output")["body"] for _ in range(3)]
        assert [one["output"] for one in told] == ["2 2\n", "1\n", "2\n"]
        self.client.stop()
        self.client.body("rewind/back", {"target": "recv g0/c1 2"})
        assert self.client.event("output")["body"]["output"] == "No longer printed: 2\n"

    def test_without_debugging_it_runs_to_its_end(self) -> None:
        self.client.launch("fibonacci_range.go", noDebug=True)
        assert self.client.event("output")["body"]["output"] == "0\n1\n1\n2\n3\n5\n8\n13\n21\n34\n"
        self.client.event("terminated")
        assert self.client.ask("threads")["success"] is False


class TestBreakpoints(Desk):
    @pytest.fixture(autouse=True)
    def launched(self, desk: None) -> None:
        self.client.launch("race_in_select.go")
        self.client.stop()
        self.path = os.path.join(DATA, "race_in_select.go")

    def set(self, *wishes: Any, path: str = "") -> list[Any]:
        return self.set_breakpoints(path or self.path, *wishes)

    def test_lines_without_a_statement(self) -> None:
        bodies = self.set({"line": 12}, {"line": 8}, {"line": 18})
        assert [(one["verified"], one["line"]) for one in bodies] == [(True, 13), (True, 8), (False, 18)]

    def test_what_is_not_there_is_told(self) -> None:
        assert not self.set({"line": 8, "condition": "x == 1"})[0]["verified"]
        assert not self.set({"line": 8}, path="/another/file.go")[0]["verified"]

    def test_places_of_breakpoints(self) -> None:
        arguments = {"source": {"path": self.path}, "line": 8, "endLine": 13}
        bodies = self.client.body("breakpointLocations", arguments)["breakpoints"]
        assert [body["line"] for body in bodies] == [8, 9, 10, 11, 13]

    def test_breakpoints_of_the_console_stay(self) -> None:
        self.client.body("evaluate", {"expression": "break 11", "context": "repl"})
        self.set()
        assert self.client.move("continue", {"threadId": 1})["description"] == "Breakpoint on line 11"

    def test_lines_counted_from_0(self) -> None:
        client = self.another()
        client.body("initialize", {"linesStartAt1": False, "columnsStartAt1": False})
        client.body("launch", {"program": self.path})
        body = client.body("setBreakpoints", {"source": {"path": self.path}, "breakpoints": [{"line": 11}]})
        assert body["breakpoints"][0]["line"] == 12
        client.body("configurationDone")
        frame = client.body("stackTrace", {"threadId": client.stop()["threadId"]})["stackFrames"][0]
        assert (frame["line"], frame["column"]) == (7, 0)


class TestValues(Desk):
    @pytest.fixture(autouse=True)
    def launched(self, desk: None) -> None:
        self.client.launch("buffered_channel.go", stopOnEntry=False)
        self.client.stop()
        self.top = self.client.body("stackTrace", {"threadId": 1})["stackFrames"][0]["id"]

    def children(self, reference: int, **part: int) -> Any:
        body = self.client.body("variables", {"variablesReference": reference, **part})
        return {one["name"]: (one["value"], one["variablesReference"]) for one in body["variables"]}

    def evaluate(self, expression: str, context: str) -> Any:
        return self.client.ask("evaluate", {"expression": expression, "context": context, "frameId": self.top})

    def test_a_channel_as_a_tree(self) -> None:
        scopes = self.client.body("scopes", {"frameId": self.top})["scopes"]
        variables = self.children(scopes[0]["variablesReference"])
        assert variables["ch"][0] == "g0/c1 (open, 2 of 2, 1 waits to send)"
        channel = self.children(variables["ch"][1])
        assert list(channel) == ["capacity", "state", "items", "senders", "receivers"]
        assert self.children(channel["items"][1]) == {"[0]": ("3", 0), "[1]": ("4", 0)}
        assert self.children(channel["items"][1], start=1, count=1) == {"[1]": ("4", 0)}
        assert self.children(channel["senders"][1]) == {"g0": ("5", 0)}

    def test_values_of_names_and_replies_of_commands(self) -> None:
        assert self.evaluate("ch", "hover")["body"]["result"] == "g0/c1 (open, 2 of 2, 1 waits to send)"
        assert self.evaluate("ch", "repl")["body"]["result"] == "g0/c1 (open, 2 of 2, 1 waits to send)"
        assert self.evaluate("g0/c1", "watch")["body"]["type"] == "chan"
        assert self.evaluate("nothing", "watch")["success"] is False
        assert self.evaluate("undo", "hover")["success"] is False
        assert self.evaluate("text g0", "repl")["body"]["result"] == "| 2 2\n| 1\n| 2\nok"
        assert self.evaluate("back g0#99", "repl")["body"]["result"] == "no B2"
        assert self.evaluate("what is this", "repl")["body"]["result"] == "? bad command"
        assert self.evaluate("", "repl")["body"]["result"] == ""
        assert self.evaluate("undo\nundo", "repl")["success"] is False

    def test_quit_ends_the_session(self) -> None:
        assert self.evaluate("quit", "repl")["body"]["result"] == "ok"
        self.client.event("terminated")
