"""What is typed for each command, kind, fault, refusal, end of a run and exit status that the page of commands
tells of."""
from __future__ import annotations

from typing import Optional

from .examples import file_of

# A source, what is typed before, and the command.
Case = tuple[str, list[str], str]


# A channel, a goroutine that receives from it and prints, and a send: six steps of `g0` and five of `g0.1`.
TALK = (
    "package main\n\nfunc f(c chan int) {\n\tx := <-c\n\tprintln(x)\n}\n\n"
    "func main() {\n\tc := make(chan int)\n\tgo f(c)\n\tc <- 1\n}\n"
)
SELECT = file_of(
    "a, b := make(chan int, 1), make(chan int, 1)\n\ta <- 1\n"
    "\tselect {\n\tcase <-a:\n\tcase <-b:\n\tdefault:\n\t}"
)
LOOP = file_of("for {\n\t}")
TWO = file_of("x := 1\n\ty := 2")
DONE = "package main\nfunc f() {\n}\nfunc main() {\n\tgo f()\n\tfor {\n\t}\n}\n"
# Of each form of a command: a source, what is typed before, and the command.
FORMS: dict[str, Case] = {
    "step G": (TALK, ["step g0"], "step g0"),
    "step G CASE": (SELECT, ["run 4"], "step g0 1"),
    "run N": (TALK, [], "run 3"),
    "undo": (TALK, ["run 3"], "undo"),
    "back G#N": (TALK, ["run 20"], "back g0#1"),
    "back go G": (TALK, ["run 20"], "back go g0.1"),
    "back send C K": (TALK, ["run 20"], "back send g0/c1 1"),
    "back recv C K": (TALK, ["run 20"], "back recv g0/c1 1"),
    "back var G X": (TALK, ["run 20"], "back var g0.1 x"),
    "redo": (TALK, ["run 20", "back g0#1"], "redo"),
    "order ID ..": (TWO, ["step g0", "step g0"], "order g0#1 g0#2"),
    "deps ID": (TALK, ["run 20"], "deps g0#1"),
    "causes ID": (TALK, ["run 20"], "causes g0.1#1"),
    "break LINE": (TALK, [], "break 10"),
    "clear LINE": (TALK, ["break 10"], "clear 10"),
    "free N": (TALK, [], "free 5"),
    "show G": (TALK, [], "show g0"),
    "chan C": (TALK, ["run 3"], "chan g0/c1"),
    "text G": (TALK, ["run 20"], "text g0.1"),
    "console": (TALK, ["run 20"], "console"),
    "log": (TALK, ["run 3"], "log"),
    "quit": (TALK, [], "quit"),
}
# Of each refusal: a source, what is typed before, and the command.
REFUSALS: dict[str, Case] = {
    "N1": (TWO, ["run 10"], "step g0"),
    "N2": (TWO, [], "text g0.1"),
    "N3": (file_of("c := make(chan int)\n\t<-c"), ["run 9"], "step g0"),
    "N4": (DONE, ["step g0", "step g0.1"], "step g0.1"),
    "N5": (SELECT, ["run 4"], "step g0 2"),
    "B1": (TWO, [], "undo"),
    "B2": (TWO, ["run 2"], "back g0#99"),
    "B3": (TWO, ["step g0", "step g0"], "order g0#1"),
    "B4": (TWO, ["step g0", "step g0"], "order g0#2 g0#1"),
    "B5": (TWO, ["step g0", "undo", "step g0"], "redo"),
    "Q1": (LOOP, ["run 1000000"], "step g0"),
}
# What comes only where memory is short, or not before the log is full.
WITHOUT_RUN = {"N6", "B6", "Q2", "memory", "NameCount"}
FAULTS = {
    "DivideByZero": file_of("x, y := 1, 0\n\tprintln(x / y)"),
    "NegativeShift": file_of("s := -1\n\tprintln(1 << s)"),
    "SendOnClosed": file_of("c := make(chan int)\n\tclose(c)\n\tc <- 1"),
    "CloseOfClosed": file_of("c := make(chan int)\n\tclose(c)\n\tclose(c)"),
    "CloseOfNil": file_of("var c chan int\n\tclose(c)"),
    "BadSize": file_of("n := -1\n\tc := make(chan int, n)"),
    "CallDepth": file_of("f()", "func f() { f() }\n"),
    "NameDepth": file_of("f()\n\tselect {\n\t}", "func f() { go f() }\n"),
}
ENDS: dict[str, Case] = {
    "ended": (TWO, [], "run 100"),
    "fault": (FAULTS["DivideByZero"], [], "run 100"),
    "count": (TWO, [], "run 2"),
    "stuck": (file_of("var c chan int\n\t<-c"), [], "run 100"),
    "full": (LOOP, ["run 1000000"], "run 1000000"),
    "break L": (TWO, ["break 4"], "run 100"),
}
CLOSED = file_of("c := make(chan int)\n\tclose(c)\n\tv, ok := <-c\n\tprintln(v, ok)")
BUFFERED = file_of("c := make(chan int, 1)\n\tc <- len(c)\n\t<-c\n\tselect {\n\tcase <-c:\n\tdefault:\n\t}")
WAITING = (
    "package main\nfunc f() int { return 1 }\nfunc g(c, d chan int) {\n\tselect {\n\tcase <-c:\n\t}\n\td <- f()\n}\n"
    "func main() {\n\tc, d := make(chan int), make(chan int)\n\tgo g(c, d)\n\tc <- 1\n\t<-d\n}\n"
)
MEETING = (
    "package main\nfunc f(c chan int) { c <- 1 }\n"
    "func main() {\n\tc := make(chan int)\n\tgo f(c)\n\tclose(make(chan int))\n\t<-c\n}\n"
)
# Runs that have a step of each kind together.
KINDS = [TALK, SELECT, DONE, CLOSED, BUFFERED, WAITING, MEETING, FAULTS["BadSize"]]
# Of each status: lines for a shell, and what stands on standard error where the page says it word by word.
STATUSES: dict[str, list[tuple[str, Optional[str]]]] = {
    "0": [
        ("printf 'step g0\\nquit\\nstep g0\\n' | rewind two.go 2>&1 >/dev/null", ""),
        ("rewind two.go </dev/null", ""),
        ("rewind --check two.go", ""),
        ("rewind --explain N1 >/dev/null", ""),
        ("rewind --help >/dev/null", ""),
        ("rewind --version >/dev/null", ""),
        ("rewind --search examples/leak.go", "no schedule ends badly: all 1754 states seen\n"),
    ],
    "1": [
        ("rewind missing.go", "rewind: cannot read missing.go\n"),
        ("rewind refused.go", "rewind: C7 at 3:2\n"),
        ("rewind --check long.go", "rewind: S7\n"),
    ],
    "2": [
        ("rewind", None),
        ("rewind two.go --check two.go", None),
        ("rewind --check two.go --explain N1", None),
        ("rewind --workers 65 two.go", None),
        ("rewind --workers 2", None),
        ("rewind --explain XX", None),
        ("rewind --strange", None),
        ("rewind \"$(printf '\\377')\"", None),
        ("rewind --blame two.go", None),
        ("rewind two.go --states 5", None),
        ("printf 'step g9\\n' | rewind --search two.go --after -", "rewind: the command in line 1 of - is refused\n"),
    ],
    "3": [
        ("rewind two.go </", "rewind: read\n"),
        ("echo step g0 | rewind two.go >/dev/full", "rewind: write\n"),
    ],
    "4": [
        ("rewind --search examples/unbuffered.go 2>&1 >/dev/null", "a schedule of 3 steps ends in a deadlock\n"),
        ("rewind --search examples/double_close.go 2>&1 >/dev/null", "a schedule of 20 steps ends in a panic\n"),
    ],
    "5": [
        ("rewind --search examples/starved_select.go --states 200", None),
    ],
}
# Lines that the words of the page tell of, with the last line of their reply.
LINES = {
    "`g00` and `g0.0` are no names": [("show g00", "? bad command"), ("show g0.0", "? bad command")],
    "The greatest count is 4,294,967,295": [("show g0.4294967295", "no N2"), ("show g0.4294967296", "? bad command")],
    "the greatest number after `#` is 18,446,744,073,709,551,615": [
        ("back g0#18446744073709551615", "no B2"),
        ("back g0#18446744073709551616", "? bad command"),
    ],
    "A carriage return at the end of a line is dropped": [("step g0\r", "ok g0#1 pure")],
    "A command is words between spaces or tabs.": [(" \tstep\t g0 ", "ok g0#1 pure")],
    "has more than 1,048,576 bytes, gives `? bad command`": [
        ("log" + " " * 1048573, "ok 0"),
        ("log" + " " * 1048574, "? bad command"),
    ],
    "takes up to N steps (1 to 1,000,000)": [
        ("run 0", "? bad command"),
        ("run 1000000", "ok 3 ended"),
        ("run 1000001", "? bad command"),
    ],
    "(0 to 1,000,000), in place of what is left": [
        ("free 0", "ok grant 0"),
        ("free 1000000", "ok grant 1000000"),
        ("free 1000001", "? bad command"),
    ],
    "are numbers from 1 to 4,294,967,295": [
        ("break 0", "? bad command"),
        ("break 4294967295", "ok"),
        ("break 4294967296", "? bad command"),
        ("back send g0/c1 4294967295", "no B2"),
        ("back send g0/c1 4294967296", "? bad command"),
    ],
    "X is an identifier of the language, and no keyword.": [("back var g0 x", "no B2"), ("back var g0 for", "? bad command")],
    "Without any step the reply is `ok 0`": [("log", "ok 0")],
}
