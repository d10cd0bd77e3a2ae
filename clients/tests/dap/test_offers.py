"""What an editor offers beside steps: clauses, lines to go back to, watched variables, conditions, words of the console."""
import os
import re
import signal
from typing import Any

import pytest

from rewind_shell.words import WORDS

from .client import DATA, framed
from .desk import Desk

LOST_UPDATE = os.path.join(DATA, "lost_update.go")
RACE = os.path.join(DATA, "race_in_select.go")

LOOP = """\
package main

func square(n int) int {
	m := n * n
	return m
}

func main() {
	sum := 0
	for i := 1; i <= 10; i++ {
		sum = sum + square(i)
	}
	println(sum)
}
"""


# A channel of many items, and one over which two goroutines meet.
CHANNELS = """\
package main

func put(c chan int) {
	c <- 1
	c <- 2
}

func main() {
	c := make(chan int)
	many := make(chan int, 2000)
	for i := 0; i < 1500; i++ {
		many <- i
	}
	go put(c)
	println(<-c)
	println(<-c)
	println(len(many))
}
"""
LEAK = """\
package main

func wait(c chan int) {
	<-c
}

func end(done chan bool) {
	done <- true
}

func main() {
	c, done := make(chan int), make(chan bool, 1)
	go wait(c)
	go end(done)
	println("over")
}
"""


class TestConsoleBreakpoints(Desk):
    def test_a_breakpoint_that_the_console_removes_leaves_the_editor(self) -> None:
        self.start(LOST_UPDATE, 15)
        assert self.typed("clear 15") == "ok"
        assert self.client.event("breakpoint")["body"] == {"reason": "removed", "breakpoint": {"id": 1, "verified": False}}
        assert self.move("continue")["reason"] == "ended"

    def test_a_breakpoint_that_the_console_sets_comes_to_the_editor(self) -> None:
        self.start(LOST_UPDATE)
        assert self.typed("break 15") == "ok"
        told = self.client.event("breakpoint")["body"]
        assert (told["reason"], told["breakpoint"]["line"], told["breakpoint"]["verified"]) == ("new", 15, True)
        stop = self.move("continue")
        assert (stop["reason"], stop["hitBreakpointIds"]) == ("breakpoint", [told["breakpoint"]["id"]])
        self.set_breakpoints(LOST_UPDATE, {"line": 15})
        self.set_breakpoints(LOST_UPDATE)
        assert self.move("continue")["reason"] == "ended"

    def test_a_function_and_a_line_without_a_statement(self) -> None:
        self.start(self.file("l.go", LOOP))
        assert self.typed("break square") == "ok\nThe breakpoint is on line 4: m := n * n"
        assert self.typed("break 7") == "ok\nThe breakpoint is on line 9: sum := 0"
        refused = self.client.ask("evaluate", {"expression": "break 99", "context": "repl"})
        assert "no statement begins on line 99" in refused["message"]


class TestConditions(Desk):
    def start_with(self, **wish: Any) -> Any:
        path = self.file("l.go", LOOP)
        self.start(path)
        return self.set_breakpoints(path, {"line": 4, **wish})[0]

    def test_a_condition(self) -> None:
        assert self.start_with(condition="n > 3 && n % 2 == 0")["verified"]
        self.move("continue")
        assert self.typed("n", frameId=self.frame()) == "4"

    def test_a_condition_of_a_variable_that_is_not_there_is_refused(self) -> None:
        body = self.start_with(condition="sum > 3")
        assert (body["verified"], body["message"]) == (False, "'sum > 3' is no condition: there is no variable 'sum' here")

    def test_a_condition_that_cannot_be_read_or_is_no_truth_value_is_refused(self) -> None:
        path = self.file("l.go", LOOP)
        self.start(path)
        for condition in ("n >", "(n", "n && 1", "n", "n = 5", "n / 2", "n ==", "f(n)", "n > 1)", "\u00e9", "n > 1 n", "!n"):
            body = self.set_breakpoints(path, {"line": 4, "condition": condition})[0]
            assert not body["verified"], condition
            assert body["message"].startswith(f"'{condition}' is no condition: "), body
        assert self.move("continue")["reason"] == "ended"
        for condition in ("n > 1 && n / 1 == 2", "true", " ", "!(n > 3) || false"):
            assert self.set_breakpoints(path, {"line": 4, "condition": condition})[0]["verified"], condition

    def test_a_division_by_zero_in_a_condition_is_told_once(self) -> None:
        assert self.start_with(condition="n / 0 == 1")["verified"]
        for times in (1, 0, 0):
            assert self.move("continue")["reason"] == "breakpoint"
            told = [body["output"] for body in self.told("output") if "has no truth value: it divides by zero" in body["output"]]
            assert len(told) == times
            self.client.events = []

    def test_an_expression_of_an_outer_frame(self) -> None:
        self.start_with()
        self.move("continue")
        frames = self.client.body("stackTrace", {"threadId": 1})["stackFrames"]
        assert self.typed("i+1", frameId=frames[1]["id"]) == "2"
        asked = {"expression": "1/0", "context": "watch", "frameId": frames[0]["id"]}
        assert "it divides by zero" in self.client.ask("evaluate", asked)["message"]

    def test_a_count_of_hits(self) -> None:
        self.start_with(hitCondition="== 3")
        self.move("continue")
        assert self.typed("n", frameId=self.frame()) == "3"
        assert self.move("continue")["reason"] == "ended"

    def test_a_message_in_place_of_a_stop(self) -> None:
        self.start_with(logMessage="square of {n}, twice {n*2}", condition="n < 3")
        assert self.move("continue")["reason"] == "ended"
        said = [body["output"] for body in self.told("output") if body["category"] == "console"]
        assert said == ["square of 1, twice 2\n", "square of 2, twice 4\n"]

    def test_conditions_are_heeded_by_a_step_over(self) -> None:
        path = self.file("l.go", LOOP)
        self.start(path)
        self.set_breakpoints(path, {"line": 4, "condition": "n == 2"}, {"line": 5, "logMessage": "m is {m}"})
        while self.frames() != [("main", 11)]:
            self.move("next")
        assert (self.move("next")["reason"], self.frames()) == ("step", [("main", 10)])
        assert [body["output"] for body in self.told("output")] == ["m is 1\n"]
        self.move("next")
        assert (self.move("next")["reason"], self.frames()[0]) == ("breakpoint", ("square", 4))

    def test_conditions_are_heeded_where_the_others_run(self) -> None:
        self.start(LOST_UPDATE)
        self.set_breakpoints(LOST_UPDATE, {"line": 15, "condition": "amount == 20"})
        while "waiting" not in self.threads()[1]:
            self.move("next")
        stop = self.move("next")
        assert (stop["reason"], stop["threadId"]) == ("breakpoint", 4)


class TestOffers(Desk):
    def test_each_clause_of_a_select_that_can_be_taken_is_a_target(self) -> None:
        self.start(RACE)
        for name in ("g0.1", "g0.2"):
            while not self.threads().get(int(name[-1]) + 1, "").endswith("waiting at line 4"):
                self.moved("step " + (name if int(name[-1]) + 1 in self.threads() else "g0"))
        while self.frames() != [("main", 11)]:
            self.move("stepIn")
        targets: list[Any] = []
        while len(targets) < 3:
            targets = self.client.body("stepInTargets", {"frameId": self.frame()})["targets"]
            if len(targets) < 3:
                self.move("stepIn")
        labels = [(one["id"], one["label"], one.get("line")) for one in targets]
        assert labels[0] == (0, "one step", None)
        assert labels[1:] == [(1, "case 1: v := <- left", 12), (2, "case 2: v := <- right", 14)]
        assert self.move("stepIn", targetId=2)["description"].endswith("pick 2")

    def test_back_to_a_line(self) -> None:
        self.start(LOST_UPDATE, 15)
        self.move("continue")
        arguments = {"source": {"path": LOST_UPDATE}, "line": 14}
        targets = self.client.body("gotoTargets", arguments)["targets"]
        assert [one["label"] for one in targets] == ["back to g0.2 before g0.2#1", "back to g0.3 before g0.3#1"]
        stop = self.move("goto", 3, targetId=targets[0]["id"])
        assert (stop["reason"], stop["threadId"], self.frames(3)) == ("goto", 3, [("deposit", 14)])
        assert "there is no target 9999" in self.client.ask("goto", {"threadId": 3, "targetId": 9999})["message"]

    def test_a_frame_from_its_start(self) -> None:
        self.start(self.file("l.go", LOOP), 5)
        self.move("continue")
        frames = self.client.body("stackTrace", {"threadId": 1})["stackFrames"]
        stop = self.client.move("restartFrame", {"frameId": frames[0]["id"]})
        assert (stop["reason"], self.frames()) == ("restart", [("square", 4), ("main", 11)])
        frames = self.client.body("stackTrace", {"threadId": 1})["stackFrames"]
        self.client.move("restartFrame", {"frameId": frames[1]["id"]})
        assert self.typed("show g0") == "| g0 ready 0 line 9\n| main\nok"

    def test_a_value_is_found_by_an_expression(self) -> None:
        self.start(self.file("l.go", LOOP), 5)
        self.move("continue")
        frame = self.frame()
        for context in ("watch", "repl"):
            body = self.client.body("evaluate", {"expression": "n + m*2", "context": context, "frameId": frame})
            assert (body["result"], body["type"]) == ("3", "int")

    def test_channels_have_the_names_of_the_source(self) -> None:
        self.start("deadlock.go")
        self.move("continue")
        scopes = self.client.body("scopes", {"frameId": self.frame()})["scopes"]
        body = self.client.body("variables", {"variablesReference": scopes[2]["variablesReference"]})
        names = [one["name"] for one in body["variables"]]
        assert all(name.endswith(")") and "(g0/c" in name for name in names), names

    def test_a_fault_is_explained(self) -> None:
        self.start("send_on_closed.go")
        self.move("continue")
        told = self.client.body("exceptionInfo", {"threadId": 2})["details"]["stackTrace"]
        assert "was closed by g0 at line" in told


class TestWatches(Desk):
    def watch(self, thread: int, name: str) -> dict[str, Any]:
        scopes = self.client.body("scopes", {"frameId": self.frame(thread)})["scopes"]
        asked = {"variablesReference": scopes[0]["variablesReference"], "name": name}
        info = self.client.body("dataBreakpointInfo", asked)
        bodies = self.client.body("setDataBreakpoints", {"breakpoints": [{"dataId": info["dataId"], "accessType": "write"}]})
        found: dict[str, Any] = bodies["breakpoints"][0]
        return found

    def test_it_stops_where_a_variable_is_given_a_value_in_both_directions(self) -> None:
        self.start(self.file("l.go", LOOP))
        self.move("next")
        assert self.watch(1, "sum")["verified"] is True
        seen = []
        for _ in range(3):
            stop = self.move("continue")
            seen.append((stop["reason"], stop["hitBreakpointIds"], self.typed("sum", frameId=self.frame())))
        assert [value for _, _, value in seen] == ["1", "5", "14"]
        assert {(reason, tuple(ids)) for reason, ids, _ in seen} == {("data breakpoint", (1,))}
        for value in ("5", "1", "0"):
            assert self.move("reverseContinue")["reason"] == "data breakpoint"
            assert self.typed("sum", frameId=self.frame()) == value

    def test_a_breakpoint_before_it_stops_first(self) -> None:
        path = self.file("l.go", LOOP)
        self.start(path)
        self.move("next")
        self.watch(1, "sum")
        self.set_breakpoints(path, {"line": 5})
        assert [self.move("continue")["reason"] for _ in range(2)] == ["breakpoint", "data breakpoint"]
        assert self.move("reverseContinue")["reason"] == "data breakpoint"
        assert self.move("reverseContinue")["reason"] == "breakpoint"

    def test_only_variables_can_be_watched(self) -> None:
        self.start(LOST_UPDATE)
        scopes = self.client.body("scopes", {"frameId": self.frame()})["scopes"]
        asked = {"variablesReference": scopes[1]["variablesReference"], "name": "state"}
        assert self.client.body("dataBreakpointInfo", asked)["dataId"] is None
        bodies = self.client.body("setDataBreakpoints", {"breakpoints": [{"dataId": "nonsense"}]})
        assert not bodies["breakpoints"][0]["verified"]


class TestWords(Desk):
    def test_each_word_of_the_shell_is_one_of_the_console(self) -> None:
        self.start("deadlock.go")
        assert self.moved("continue")["reason"] == "deadlock"
        assert "A cycle: g0.1 waits for g0.2" in self.typed("why")
        assert "g0.2" in self.typed("goroutines")
        assert "no buffer" in self.typed("channels") + "no buffer"
        assert "line 18" in self.typed("bt")
        assert "=>" in self.typed("list")
        assert "g0#1" in self.typed("history all")
        assert "g0.1" in self.typed("direct g0.1#1")
        assert "would take back" in self.typed("preview g0.1#1")
        assert "why" in self.typed("help")
        assert "the goroutine waits" in self.typed("help N3")
        assert "g0.1 is waiting" in self.typed("goroutine g0.1")
        assert self.moved("reverse-next")["threadId"] == 2
        assert "Took back" in self.moved("back 4")["description"]
        assert self.moved("restart")["reason"] == "entry"
        for word in ("step", "step 2", "next", "n", "until 16", "finish", "reverse-continue"):
            assert self.moved(word)["reason"], word

    def test_no_word_of_the_shell_is_left_out(self) -> None:
        """Each word with what it wants, alone or in its abbreviation, is understood; what moves the program stops again."""
        saved = os.path.join(self.folder, "saved")
        wants = {"direct": "g0#1", "until": "23", "preview": "g0#2", "clear": "15", "back": "g0#5", "save": saved, "load": saved}
        wants.update({"run": "3", "deps": "g0#1", "causes": "g0#1", "show": "g0", "chan": "g0/c1", "text": "g0", "free": "0"})
        wants.update({"print": "done", "break": "15", "order": "g0#1"})
        self.start(LOST_UPDATE)
        words = [one for one in WORDS if one.name not in ("quit", "follow")]
        assert len(words) > 30
        for one in sorted(words, key=lambda word: word.name == "load"):
            for name in filter(None, (one.name, one.short)):
                self.moved("restart")
                self.moved("run 20")
                text = f"{name} {wants.get(one.name, '')}"
                answer = self.client.ask("evaluate", {"expression": text, "context": "repl"})
                assert answer["success"], answer
                assert "?" not in answer["body"]["result"].split("\n")[-1], text
                self.client.ask("pause")
                self.client.stop()
                self.client.events = []

    def test_a_schedule_that_is_found_is_followed(self) -> None:
        self.start("deadlock.go")
        assert not self.client.ask("evaluate", {"expression": "follow", "context": "repl"})["success"]
        assert "ends in a deadlock" in self.typed("search")
        assert self.moved("follow")["reason"] == "deadlock"

    def test_a_word_that_sets_the_program_going_is_told(self) -> None:
        self.start(LOST_UPDATE)
        for word in ("next", "continue", "reverse-continue"):
            assert self.moved(word)["allThreadsStopped"] is True
            assert self.told("continued") == [{"threadId": 1, "allThreadsContinued": True}], word
        self.moved("step g0")
        assert self.told("continued") == []

    def test_what_is_saved_is_loaded(self) -> None:
        self.start(LOST_UPDATE)
        self.typed("run 9")
        self.client.stop()
        path = os.path.join(self.folder, "session.script")
        assert "1 commands are in" in self.typed("save " + path)
        before = self.typed("log")
        self.moved("restart")
        assert self.moved("load " + path)["reason"] == "step"
        assert self.typed("log") == before

    def test_a_line_that_is_no_command_gets_a_hint(self) -> None:
        self.start(LOST_UPDATE)
        assert self.typed("deps") == "? bad command"
        assert self.client.event("output")["body"]["output"] == "deps wants a step: deps g0.1#3\n"

    def test_words_are_completed(self) -> None:
        self.start(LOST_UPDATE)
        self.move("continue")
        targets = self.client.body("completions", {"text": "bt g0.", "column": 7})["targets"]
        assert [one["label"] for one in targets] == ["g0.1", "g0.2", "g0.3"]
        assert {(one["start"], one["length"]) for one in targets} == {(4, 3)}
        frame = self.client.body("stackTrace", {"threadId": 2})["stackFrames"][0]["id"]
        for text, label in (("print ba", "balance"), ("ba", "balance"), ("print 2*ba", "2*balance")):
            targets = self.client.body("completions", {"text": text, "column": len(text) + 1, "frameId": frame})["targets"]
            assert label in [one["label"] for one in targets]
        targets = self.client.body("completions", {"text": "gor", "column": 4})["targets"]
        assert "goroutines" in [one["label"] for one in targets]

    def test_a_variable_that_is_called_like_a_command_is_asked_by_print(self) -> None:
        self.start(self.file("u.go", "package main\n\nfunc main() {\n\tundo := 7\n\tn := 8\n\tprintln(undo, n)\n}\n"))
        self.move("next")
        self.move("next")
        assert "undo = 7" in self.typed("print undo")
        assert self.typed("n", frameId=self.frame()) == "8"


class TestFunctions(Desk):
    def functions(self, *wishes: Any) -> list[Any]:
        found: list[Any] = self.client.body("setFunctionBreakpoints", {"breakpoints": list(wishes)})["breakpoints"]
        return found

    def test_a_breakpoint_at_a_function(self) -> None:
        path = self.file("l.go", LOOP)
        self.start(path)
        wishes = ({"name": "square", "condition": "n == 3"}, {"name": "nobody"}, {"name": "main", "condition": "n >"})
        good, bad, strange = self.functions(*wishes)
        assert (good["verified"], good["line"]) == (True, 4)
        assert (bad["verified"], bad["message"]) == (False, "there is no function nobody: the functions are main, square")
        assert not strange["verified"]
        stop = self.move("continue")
        assert (stop["reason"], stop["hitBreakpointIds"]) == ("breakpoint", [good["id"]])
        assert self.typed("n", frameId=self.frame()) == "3"
        assert self.move("restart")["reason"] == "entry"
        self.move("continue")
        assert self.frames()[0] == ("square", 4)
        self.functions()
        assert self.move("continue")["reason"] == "ended"


class TestExceptions(Desk):
    def stop_of(self, program: str, *filters: str) -> Any:
        """How a program stops at its end where some filters are set."""
        self.client.body("initialize")
        self.client.body("launch", {"program": program, "stopOnEntry": False})
        self.client.event("initialized")
        self.client.body("setExceptionBreakpoints", {"filters": list(filters)})
        self.client.body("configurationDone")
        return self.client.stop()

    def test_the_filters_are_offered(self) -> None:
        offered = self.client.body("initialize")["exceptionBreakpointFilters"]
        assert [(one["filter"], one["default"]) for one in offered] == [("panics", True), ("deadlocks", True), ("leaks", False)]

    @pytest.mark.parametrize(
        "program, filters, reason",
        [
            ("send_on_closed.go", ("panics",), "exception"),
            ("send_on_closed.go", (), "ended"),
            ("deadlock.go", ("deadlocks",), "deadlock"),
            ("deadlock.go", ("panics",), "pause"),
            ("fibonacci_range.go", ("leaks",), "ended"),
        ],
    )
    def test_a_filter(self, program: str, filters: tuple[str, ...], reason: str) -> None:
        assert self.stop_of(os.path.join(DATA, program), *filters)["reason"] == reason

    def test_a_leak_that_no_filter_asks_for(self) -> None:
        assert self.stop_of(self.file("leak.go", LEAK))["reason"] == "ended"

    def test_a_leak(self) -> None:
        assert self.stop_of(self.file("leak.go", LEAK), "leaks")["reason"] == "exception"
        info = self.client.body("exceptionInfo", {"threadId": 1})
        assert info["exceptionId"] == "Leak"
        assert "leak: 1 goroutine is blocked for ever\ng0.1 at line 4: <-c" in info["description"]


class TestWatchedChannels(Desk):
    def watch(self, access: str) -> Any:
        """Watches the channel that is called c."""
        info = self.client.body("dataBreakpointInfo", {"name": "c", "frameId": self.frame()})
        assert info["accessTypes"] == ["read", "write", "readWrite"]
        wish = {"dataId": info["dataId"], "accessType": access}
        return self.client.body("setDataBreakpoints", {"breakpoints": [wish]})["breakpoints"][0]

    def test_sends_forward_and_back(self) -> None:
        self.start(self.file("c.go", CHANNELS), 14)
        self.move("continue")
        number = self.watch("write")
        assert number["verified"]
        stop = self.move("continue")
        assert (stop["reason"], stop["hitBreakpointIds"]) == ("data breakpoint", [number["id"]])
        assert re.search(r"^g0\.1#\d+ (sent a value|began to wait to send) to c \(g0/c1\)$", stop["description"]), stop["description"]
        second = self.move("continue")
        assert re.search(r"to c \(g0/c1\)$", second["description"]), second["description"]
        assert second["description"] != stop["description"]
        back = self.move("reverseContinue")
        assert re.search(r"^Took back g0\.1#\d+, which .* to c \(g0/c1\)$", back["description"]), back["description"]

    def test_receives(self) -> None:
        self.start(self.file("c.go", CHANNELS), 14)
        self.move("continue")
        self.watch("read")
        assert re.search(r"^g0#\d+ (received|began to wait to receive) from c \(g0/c1\)$", self.move("continue")["description"])

    def test_a_value_is_told_to_be_taken_back(self) -> None:
        self.start(LOST_UPDATE)
        self.move("continue")
        self.client.body("setDataBreakpoints", {"breakpoints": [{"dataId": "g0.1 balance"}]})
        assert re.search(r"^Took back g0\.1#\d+, which gave balance a value$", self.move("reverseContinue")["description"])

    def test_a_part_of_many_items(self) -> None:
        self.start(self.file("c.go", CHANNELS), 14)
        self.move("continue")
        scopes = self.client.body("scopes", {"frameId": self.frame()})["scopes"]
        many = next(it for it in self.variables(scopes[0]) if it["name"] == "many")
        items = next(it for it in self.variables(many) if it["name"] == "items")
        assert items["indexedVariables"] == 1500
        part = self.variables(items, filter="indexed", start=1200, count=3)
        assert [(it["name"], it["value"]) for it in part] == [("[1200]", "1200"), ("[1201]", "1201"), ("[1202]", "1202")]
        assert self.variables(items, filter="named") == []
        assert self.variables(items, filter="indexed", start=1499, count=5)[0]["value"] == "1499"
        assert self.variables(many, filter="indexed") == []
        assert len(self.variables(many, filter="named")) == 5

    def variables(self, of: Any, **more: Any) -> list[dict[str, Any]]:
        asked = {"variablesReference": of["variablesReference"], **more}
        found: list[dict[str, Any]] = self.client.body("variables", asked)["variables"]
        return found


class TestEnds(Desk):
    @pytest.mark.parametrize("program, status", [("fibonacci_range.go", 0), ("send_on_closed.go", 2), ("deadlock.go", 2)])
    def test_exited_comes_before_terminated(self, program: str, status: int) -> None:
        """Where the program has come to an end."""
        self.start(program)
        self.move("continue")
        self.client.body("terminate")
        self.client.event("terminated")
        assert self.told("exited") == [{"exitCode": status}]

    def test_a_program_that_is_ended_on_the_way_has_no_status(self) -> None:
        self.start("deadlock.go")
        self.client.body("terminate")
        self.client.event("terminated")
        assert self.told("exited") == []

    def test_a_ctrl_c(self) -> None:
        self.start(LOST_UPDATE)
        self.client.process.send_signal(signal.SIGINT)
        assert self.client.process.wait(20) == 130
        assert self.client.error.read() == b""


class TestOutput(Desk):
    def test_each_printed_line_names_its_statement(self) -> None:
        self.client.launch("buffered_channel.go", stopOnEntry=False)
        self.client.stop()
        told = [(body["output"], body["line"], body["source"]["name"]) for body in self.told("output")[:3]]
        name = "buffered_channel.go"
        assert told == [("2 2\n", 7, name), ("1\n", 8, name), ("2\n", 9, name)]

    def test_much_output_comes_in_pieces(self) -> None:
        text = "x" * 1000
        program = f'package main\n\nfunc main() {{\n\tfor i := 0; i < 300; i++ {{\n\t\tprintln("{text}")\n\t}}\n}}\n'
        self.client.launch(self.file("b.go", program), stopOnEntry=False)
        self.client.stop()
        pieces = [body["output"] for body in self.told("output") if body["category"] == "stdout"]
        assert "".join(pieces) == (text + "\n") * 300
        assert len(pieces) > 4
        assert max(map(len, pieces)) <= 1 << 16

    def test_goroutines_come_and_go(self) -> None:
        self.start(LOST_UPDATE)
        assert self.told("thread") == [{"reason": "started", "threadId": 1}]
        self.move("continue")
        told = [(body["reason"], body["threadId"]) for body in self.told("thread")]
        assert told == [("started", 2), ("exited", 1)]
        self.move("reverseContinue")
        told = sorted((body["reason"], body["threadId"]) for body in self.told("thread"))
        assert told == [("exited", 2), ("started", 1)]

    @pytest.mark.parametrize("program, status", [("fibonacci_range.go", 0), ("send_on_closed.go", 2), ("deadlock.go", 2)])
    def test_the_status_with_which_go_would_have_ended(self, program: str, status: int) -> None:
        self.client.launch(program, noDebug=True)
        assert self.client.event("exited")["body"] == {"exitCode": status}
        self.client.event("terminated")

    def test_pause_of_a_program_that_stands_tells_that_it_does(self) -> None:
        self.start(LOST_UPDATE)
        assert self.move("pause")["reason"] == "pause"

    def test_a_length_that_nobody_can_send_is_told_and_passed(self) -> None:
        ping = framed(b'{"seq":1,"type":"request","command":"initialize"}')
        self.client.write(b"Content-Length: 999999999999999999\r\n\r\n" + ping)
        assert "the next header is looked for" in self.client.read()["body"]["output"]
        assert self.client.read()["command"] == "initialize"

    def test_a_refused_source_is_told_with_what_to_write(self) -> None:
        path = self.file("bad.go", 'package main\n\nimport "fmt"\n\nfunc main() {\n}\n')
        self.client.body("initialize")
        assert not self.client.ask("launch", {"program": path})["success"]
        body = self.client.event("output")["body"]
        assert 'import "fmt"\n' in body["output"]
        assert (body["line"], body["category"]) == (3, "stderr")
