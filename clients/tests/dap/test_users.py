"""What a user of an editor sees: who stands where, what a step leads to, and that no session is lost."""
import os
import time

from .client import DATA
from .desk import Desk

ENDLESS = "package main\n\nfunc main() {\n\tx := 0\n\tfor {\n\t\tx++\n\t}\n}\n"
PRINTING = "package main\n\nfunc main() {\n\tfor i := 0; i < 30; i++ {\n\t\tprintln(i)\n\t}\n\tc := make(chan int)\n\t<-c\n}\n"

CALLS = """\
package main

func f(x int) int { return x * 2 }

func main() {
	a := f(1) + f(2) + f(3)
	b := f(a)
	println(a, b)
}
"""

FIB = """\
package main

func fib(n int) int {
	if n < 2 {
		return n
	}
	return fib(n-1) +
		fib(n-2) +
		fib(0)
}

func main() {
	a := fib(3)
	a = fib(2)
	println(a)
}
"""

MANY = """\
package main

func w(c chan int) {
	c <- 1
}

func last(c chan int) {
	x := 1
	c <- x
}

func main() {
	c := make(chan int)
	for i := 0; i < 1100; i++ {
		go w(c)
	}
	go last(c)
	for i := 0; i < 1101; i++ {
		<-c
	}
}
"""


class TestWorkers(Desk):
    def test_while_workers_run_the_editor_shows_the_present(self) -> None:
        self.start(self.file("e.go", ENDLESS), workers=2)
        assert self.typed("free 50000") == "ok grant 50000"
        assert self.client.event("continued")["body"] == {"threadId": 1, "allThreadsContinued": True}
        assert self.client.stop()["description"] == "The workers took 50000 steps"
        assert self.threads() == {1: "g0 main, ready at line 6"}
        assert self.frames() == [("main", 6)]
        assert self.typed("show g0").split("\n")[0] == "| g0 ready 50000 line 6"

    def test_what_workers_print_and_why_they_rest_is_told(self) -> None:
        self.start(self.file("p.go", PRINTING), workers=2)
        self.typed("free 1000000")
        assert self.client.stop()["reason"] == "deadlock"
        printed = [body for body in self.told("output") if body["category"] == "stdout"]
        assert "".join(body["output"] for body in printed) == "".join(f"{number}\n" for number in range(30))

    def test_pause_stops_the_workers(self) -> None:
        self.start(self.file("e.go", ENDLESS), workers=1)
        self.typed("free 1000000")
        self.client.body("pause", {"threadId": 1})
        assert self.client.stop()["reason"] == "pause"
        steps = self.typed("show g0").split(" ")[3]
        time.sleep(0.1)
        assert self.typed("show g0").split(" ")[3] == steps
        assert "free 0" in self.given()


class TestReverseContinue(Desk):
    def test_over_a_full_log_it_comes_to_the_breakpoint_and_the_session_lives(self) -> None:
        self.start(self.file("e.go", ENDLESS), 4)
        assert self.move("continue")["description"] == "The log is full: take steps back to go on"
        before = len(self.given())
        assert self.move("reverseContinue")["description"] == "Breakpoint on line 4, before g0#1"
        assert self.frames() == [("main", 4)]
        assert len(self.given()) - before < 20

    def test_without_breakpoints_it_is_one_command(self) -> None:
        self.start(os.path.join(DATA, "lost_update.go"))
        self.move("continue")
        assert self.move("reverseContinue")["description"] == "The start of the program"
        assert [line for line in self.given() if line.startswith(("undo", "back"))] == ["back g0#1"]


class TestStepOver(Desk):
    def test_where_the_goroutine_waits_the_others_go_on(self) -> None:
        self.start(os.path.join(DATA, "lost_update.go"))
        while "waiting" not in self.threads()[1]:
            self.move("next")
        assert self.frames() == [("main", 24)]
        for line in (25, 26):
            for _ in range(2):
                stop = self.move("next")
            assert (stop["reason"], stop["threadId"]) == ("step", 1)
            assert self.frames() == [("main", line)]
        assert "No step was taken" not in self.client.output()

    def test_where_all_wait_a_deadlock_is_told(self) -> None:
        self.start("deadlock.go")
        while "waiting" not in self.threads()[1]:
            self.move("next")
        assert self.move("next")["reason"] == "deadlock"
        assert self.move("stepOut")["reason"] == "deadlock"

    def test_a_breakpoint_of_another_goroutine_stops_it(self) -> None:
        self.start("lost_update.go", 15)
        while "waiting" not in self.threads()[1]:
            self.move("next")
        stop = self.move("next")
        assert (stop["reason"], stop["threadId"]) == ("breakpoint", 3)

    def test_step_into_and_out_of_a_wait(self) -> None:
        self.start("lost_update.go")
        while "waiting" not in self.threads()[1]:
            self.move("next")
        assert self.move("stepIn")["description"] == "After g0#9 recv-wait"
        while "waiting" not in self.threads()[2]:
            self.move("stepIn", 2)
        assert self.move("stepOut", 2)["threadId"] == 2


class TestStepBack(Desk):
    def test_one_step_back_leads_where_one_step_over_came_from(self) -> None:
        self.start(self.file("c.go", CALLS))
        seen = [self.typed("show g0")]
        for _ in range(3):
            self.move("next")
            seen.append(self.typed("show g0"))
        for shown in reversed(seen[:-1]):
            self.move("stepBack")
            assert self.typed("show g0") == shown

    def test_an_instruction_back_is_one_step(self) -> None:
        self.start(self.file("c.go", CALLS))
        self.move("next")
        steps = int(self.typed("show g0").split(" ")[3])
        self.move("stepBack", granularity="instruction")
        assert int(self.typed("show g0").split(" ")[3]) == steps - 1


class TestSource(Desk):
    def test_a_file_saved_while_debugging_moves_no_frame_and_is_told(self) -> None:
        path = self.file("r.go", FIB)
        self.start(path, 5)
        self.move("continue")
        wanted = [("fib", 5), ("fib", 7), ("fib", 7), ("main", 13)]
        assert self.frames() == wanted
        self.file("r.go", "// one\n// two\n// three\n" + FIB)
        self.move("continue")
        assert self.frames()[1:] == [("fib", 7), ("fib", 7), ("main", 13)]
        said = [body["output"] for body in self.told("output") if body["category"] == "important"]
        assert len(said) == 1
        assert "r.go has changed since the session began" in said[0]
        self.move("stepBack")
        assert "important" not in [body["category"] for body in self.told("output")]

    def test_a_restart_takes_the_changed_file(self) -> None:
        path = self.file("r.go", FIB)
        self.start(path, 13)
        self.move("continue")
        self.file("r.go", "// one\n" + FIB)
        frame = self.frame()
        self.client.body("restart")
        assert self.client.stop()["reason"] == "entry"
        changed = [body["breakpoint"]["line"] for body in self.told("breakpoint")]
        assert (self.frames(), changed) == ([("main", 14)], [14])
        assert not self.client.ask("scopes", {"frameId": frame})["success"]
        assert self.move("stepIn")["reason"] == "step"

    def test_a_restart_of_a_program_that_runs(self) -> None:
        self.start(self.file("e.go", ENDLESS))
        self.client.body("continue", {"threadId": 1})
        self.client.body("restart")
        assert self.client.stop()["reason"] == "entry"
        assert self.typed("log") == "ok 0"


class TestThreads(Desk):
    def test_a_breakpoint_behind_a_thousand_goroutines_stops_in_its_thread(self) -> None:
        self.start(self.file("m.go", MANY), 9)
        stop = self.move("continue")
        assert stop["reason"] == "breakpoint"
        assert self.frames(stop["threadId"]) == [("last", 9)]
        threads = self.threads()
        assert (len(threads), threads[stop["threadId"]]) == (1001, "g0.1101 last, ready at line 9")
