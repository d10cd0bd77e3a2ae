"""The shell as a filter: its words, hints, and what it does where something goes wrong."""
from __future__ import annotations

import io
import os
import random
import re
import stat
import subprocess
import sys
from collections.abc import Callable
from dataclasses import replace
from pathlib import Path

import pytest

from rewind_client import motion
from rewind_client.core import Core
from rewind_client.opening import open_session
from rewind_client.process import TIMEOUT
from rewind_client.versions import output, version_of
from rewind_shell.completing import Completing
from rewind_shell.interrupts import Interrupts
from rewind_shell.shell import Shell
from rewind_shell.terminal import Screen
from rewind_shell.words import ALIASES, WORDS

from fakes import FIRST
from support.places import CLIENTS, EXAMPLES
from opened import Open

SHELL = CLIENTS / "rewind-shell"
Talk = Callable[..., "subprocess.CompletedProcess[str]"]


@pytest.fixture
def talk(rewind: str, tmp_path: Path) -> Talk:
    """Gives commands to a shell, and returns what it wrote."""

    def given(source: str, *commands: str, program: str = rewind) -> "subprocess.CompletedProcess[str]":
        words = [sys.executable, str(SHELL), "--rewind", program, source]
        environment = {**os.environ, "XDG_STATE_HOME": str(tmp_path / "state")}
        text = "".join(line + "\n" for line in commands)
        return subprocess.run(words, input=text, capture_output=True, text=True, env=environment, cwd=tmp_path, timeout=60)

    return given


def example(name: str) -> str:
    return str(EXAMPLES / (name + ".go"))


def answers(text: str) -> list[list[str]]:
    """The lines behind each echoed command."""
    return [part.splitlines()[1:] for part in text.split("\n> ")] if text else []


def test_commands_pass_unchanged(talk: Talk, rewind: str) -> None:
    commands = [
        "step g0",
        "step g0 1",
        "run 10",
        "undo",
        "back g0#3",
        "redo",
        "deps g0#1",
        "causes g0#5",
        "show g0",
        "chan g0/c1",
    ]
    commands += [
        "text g0",
        "log",
        "back go g0.1",
        "back send g0/c1 1",
        "back recv g0/c1 1",
        "back var g0 f1",
        "free 3",
        "order g0#1",
    ]
    core = subprocess.run([rewind, example("philosophers")], input="\n".join(commands) + "\n", stdout=subprocess.PIPE, text=True)
    shown = talk(example("philosophers"), *commands).stdout.splitlines()
    replies = [line for line in shown if line.startswith(("| ", "ok", "no ", "? "))]
    assert replies == core.stdout.splitlines()
    assert [line[2:] for line in shown if line.startswith("> ")] == commands


HINTS = [
    ("step main", "step wants a goroutine"),
    ("run", "run wants a number"),
    ("run 0", "run wants a number"),
    ("show", "show wants a goroutine"),
    ("chan 1", "chan wants a channel"),
    ("undo 5", "undo stands alone"),
    ("back", "back wants a step"),
    ("back g0.1", "back wants a step"),
    ("deps", "deps wants a step"),
    ("log 5", "log stands alone"),
    ("Step g0", "small letters: step"),
    ("gorotines", "did you mean 'goroutines'"),
    ("what now", "there is no command 'what'"),
    ("until", "until wants a line"),
    ("print", "print wants a variable"),
    ("direct", "direct wants a step"),
    ("direct g0#9", "no step g0#9 in the log"),
    ("history x", "history wants a number, a goroutine, a channel or 'all'"),
    ("why g0", "why stands alone: 'g0' is not taken"),
    ("next 3", "next stands alone: '3' is not taken"),
    ("bt g0 g0.1", "bt takes one word: 'g0.1' is not taken. It is used so: bt [G]"),
    ("list 9 10", "list takes one word: '10' is not taken"),
    ("print n m", "'n m' has no value: 'm' is not expected there"),
    ("print n +", "'n +' has no value: something is missing at its end"),
    ("print left", "g0 has no variable 'left' with a value here"),
    ("back main", "main is a function; 'back go G' takes back the start of a goroutine"),
    ("back nobody", "there is no variable 'nobody' in the program"),
    ("b 99999", "no statement begins on line 99999"),
    ("step g1", "there is no goroutine g1: main is g0, the first that it starts is g0.1"),
    ("show g1.1", "there is no goroutine g1.1: main is g0"),
    ("step\u00a0g1", "there is no goroutine g1: main is g0"),
    ("free 3", "The shell has no workers"),
    ("help deadlock", "no goroutine is ready"),
    ("help Leak", "a leak is a goroutine that is blocked for ever"),
    ("goroutine g7", "no goroutine g7"),
    ("list nobody", "list wants a line"),
    ("break 99999", "no statement begins on line 99999"),
    ("break nobody", "no function nobody"),
    ("save", "save wants a file"),
    ("save /nowhere/x", "cannot be written"),
    ("load /nowhere/x", "cannot be read"),
    ("help nobody", "no command and no code"),
    ("step g0.9", "N2: there is no such goroutine"),
    ("undo", "B1: no step is kept"),
]


def test_a_hint_for_each_line_that_is_wrong(talk: Talk) -> None:
    done = talk(example("philosophers"), *(command for command, _ in HINTS))
    assert done.returncode == 0
    for (command, hint), said in zip(HINTS, answers(done.stdout)):
        assert hint in " ".join(said), command


def test_abbreviations(talk: Talk) -> None:
    commands = [
        "s g0",
        "s 2",
        "r 5",
        "cons",
        "b g0#2",
        "b go g0.1",
        "caus g0#1",
        "b 8",
        "cl 8",
        "u 8",
        "w",
        "gs",
        "cs",
        "hi 2",
        "exit 1",
    ]
    shown = answers(talk(example("lock_order"), *commands).stdout)
    assert shown[0] == ["ok g0#1 make"] and shown[3] == ["ok"]
    assert shown[2] == ["ok 5 count", "The run has taken the 5 steps that it was to take."]
    assert shown[4][0].startswith("ok 7 g0#2") and shown[5][0] == "no B2" and shown[6] == ["ok 1 g0#1"]
    assert shown[14] == ["? bad command", "quit stands alone"]


def test_random_lines(talk: Talk) -> None:
    """Whatever is typed, the shell answers and goes on."""
    chance = random.Random(5)
    names = [word.name for word in WORDS if word.name not in ("quit", "save", "load")] + [
        short for short in ALIASES if short not in ("q", "exit")
    ]
    more = [
        "g0",
        "g0.1",
        "g0.9",
        "g0/c1",
        "g0#3",
        "g0.1#2",
        "7",
        "0",
        "-1",
        "99999999999",
        "x",
        "f1",
        "var",
        "go",
        "all",
        "main",
        "\x00",
        "\\xff",
        "é",
        "'",
        "#",
    ]
    blanks = [" "] * 20 + ["\t", "\u00a0", "\u2003", "\u3000", "\x1c", "\x85", "\u2028", "\ufeff"]
    lines = []
    for _ in range(400):
        words = [chance.choice(names)] + chance.choices(more, k=chance.choice([0, 1, 1, 1, 2, 3]))
        lines.append(chance.choice(["", "", "", *blanks[20:]]) + "".join(word + chance.choice(blanks) for word in words))
    done = talk(example("philosophers"), *lines)
    assert done.returncode == 0 and done.stderr == ""
    assert [line[2:] for line in done.stdout.split("\n") if line.startswith("> ")] == lines


def test_help(talk: Talk) -> None:
    shown = talk(example("philosophers"), "help", "help n", "help N3", "h back").stdout
    assert "reverse-continue (rc)" in shown and "the goroutine waits" in shown and "back LINE" in shown


def test_breakpoints(talk: Talk) -> None:
    shown = answers(
        talk(example("lock_order"), "break 6", "break worker", "break", "run 100", "clear 8", "clear 8", "continue").stdout
    )
    assert shown[0][1] == "The breakpoint is moved to line 8: lock(first)"
    assert shown[2] == ["line 8: lock(first)"]
    assert shown[3][0].endswith("break 8") and shown[3][1].startswith("Breakpoint on line 8: g0.1 comes to")
    assert shown[5][1].startswith("there was no breakpoint")
    assert shown[6][0].startswith("Deadlock")


def test_movements(talk: Talk) -> None:
    commands = ["step 3", "next", "until 20", "goroutine g0", "finish", "reverse-next", "reverse-continue"]
    shown = answers(talk(example("lock_order"), *commands).stdout)
    assert shown[0][0] == "g0#3 pure; g0 is ready at line 18 of main: unlock(a)"
    assert "line 19 of main" in shown[1][0]
    assert "line 20 of main" in shown[2][0]
    assert "waiting at line 23" in shown[4][0]
    assert shown[6][0] == "The start of the program."


def test_going_back_to_a_line_and_a_variable(talk: Talk) -> None:
    shown = answers(
        talk(example("off_by_one"), "run 30", "goroutine g0.2", "preview 14", "back 14", "back var sum", "back done").stdout
    )
    assert shown[2][0].startswith("'back g0.2#")
    assert shown[3][0].startswith("This takes back") and shown[3][1].startswith("ok ")
    assert shown[4][1].startswith("ok ")


def test_looking(talk: Talk) -> None:
    commands = [
        "run 1000",
        "goroutines",
        "channels",
        "bt g0.2",
        "g g0.1",
        "print left",
        "p g0/c3",
        "list",
        "list main",
        "history g0.1",
        "history f2",
    ]
    shown = answers(talk(example("philosophers"), *commands).stdout)
    assert shown[1][1].startswith("  g0.1     waiting at line 5")
    assert shown[2][0] == "f1 (g0/c1): open, 0 of 1 items; g0.3 waits to receive"
    assert shown[3][1] == "#0 philosopher, line 5: r := <-right"
    assert shown[5][0].startswith("left = f1 (g0/c1)")
    assert any(line.startswith("=>    5") and "g0.1 g0.2 g0.3" in line for line in shown[7])
    assert [line.split()[0] for line in shown[9]] == ["g0.1#1", "g0.1#2", "g0.1#3"]
    assert len(shown[10]) == 3


def test_what_is_printed(talk: Talk) -> None:
    shown = answers(talk(example("leak"), "run 1000", "back g0#30").stdout)
    assert shown[0][1:4] == ["prints: 1", "prints: -1", "prints: -1"]
    assert "no longer prints: -1" in shown[1]


def test_very_many_printed_lines(talk: Talk, tmp_path: Path) -> None:
    (tmp_path / "many.go").write_text("package main\nfunc main() {\n\tfor i := 0; ; i++ {\n\t\tprintln(i)\n\t}\n}\n")
    shown = answers(talk("many.go", "run 50000", "run 9", "restart", "run 9", "run 999999").stdout)
    assert shown[0][-3] == "(and 16656 lines more: 'console' shows all that is printed)"
    assert shown[0][-2].startswith("(from here on") and shown[1][0] == "ok 9 count"
    assert shown[3][1] == "prints: 0"
    assert shown[4][0].startswith("ok ") and shown[4][1].startswith("(from here on")


def test_completion(rewind: str) -> None:
    shell = Shell(rewind, str(EXAMPLES / "philosophers.go"), Screen(sys.stdout, lambda: False), Interrupts(), None)
    shell.obey("run 1000")
    completing = Completing(shell)
    assert completing.of("x") == [] and completing.of("gorou") == ["goroutine", "goroutines"]
    assert completing.of("bt g0.") == ["g0.1", "g0.2", "g0.3"]
    assert completing.of("chan g0/c") == ["g0/c1", "g0/c2", "g0/c3", "g0/c4"]
    assert "g0.3#3" in completing.of("back g0.3#") and "22" in completing.of("break 2") and "main" in completing.of("break ")
    assert completing.of("print f") == ["f1", "f2", "f3"]
    assert completing.of("print len(don") == ["len(done"] and completing.of("p 2*f") == ["2*f1", "2*f2", "2*f3"]
    assert completing.of("history don") == ["done"] and completing.of("b ma") == ["main"]
    assert completing.of("help re") == ["redo", "restart", "reverse-continue", "reverse-next"]
    assert completing.of("nobody x") == []
    shell.session.core.process.end()
    assert completing.of("bt nobody") == []
    shell.end()


def test_saving_and_loading(talk: Talk, tmp_path: Path, rewind: str) -> None:
    talk(example("lock_order"), "step 2", "next", "break 8", "continue", "show g0", "bad", "save saved")
    script = (tmp_path / "saved").read_text()
    assert script.startswith("// commands for lock_order.go, SHA-256 ")
    assert "bad\n" not in script and script.splitlines()[1] == "step g0" and "show g0" in script
    again = talk(example("lock_order"), "load saved", "break", "log").stdout
    assert "0 of them refused" in again and "line 8: lock(first)" in again
    other = talk(example("philosophers"), "load saved").stdout
    assert "saved is of another source than" in other and "is of another source" not in again
    plain = subprocess.run([rewind, example("lock_order")], input=script + "log\n", stdout=subprocess.PIPE, text=True).stdout
    assert steps_in(again) == steps_in(plain) != []


def test_a_file_of_the_page(talk: Talk, tmp_path: Path) -> None:
    """The page writes the commands of a session as comments behind the source; the start takes them, and so does load."""
    source = Path(example("lock_order")).read_text()
    (tmp_path / "page.go").write_text(source + "\n// commands of Rewind:\n// step g0\n// run 4\n")
    begun = talk("page.go", "log").stdout
    assert begun.startswith("2 commands of page.go were taken, 0 of them refused; the last gave\nok 4 count\n") and len(steps_in(begun)) == 5
    (tmp_path / "plain.go").write_text(source)
    loaded = talk("plain.go", "load page.go", "log").stdout
    assert "another source" not in loaded and steps_in(loaded) == steps_in(begun)
    assert "another source" in talk(example("philosophers"), "load page.go").stdout


def test_one_file(talk: Talk, tmp_path: Path, rewind: str) -> None:
    """Under a name of Go, commands are saved behind their source. The core, the start and load take such a file."""
    source = Path(example("lock_order")).read_text()
    told = talk(example("lock_order"), "step g0", "run 4", "save session.go", "log").stdout
    assert "2 commands are in session.go" in told
    saved = (tmp_path / "session.go").read_text()
    assert saved.startswith(source + "\n// commands of Rewind:\n// // version: ") and saved.endswith("\n// step g0\n// run 4\n")
    begun = talk("session.go", "log").stdout
    assert begun.startswith("2 commands of session.go were taken, 0 of them refused") and steps_in(begun) == steps_in(told) != []
    assert steps_in(talk(example("lock_order"), "load session.go", "log").stdout) == steps_in(told)
    assert subprocess.run([rewind, "--check", str(tmp_path / "session.go")], check=False).returncode == 0
    again = talk("session.go", "step g0", "save session.go", "save other.go", "log")
    assert "session.go is the source itself: name another file" in again.stdout and (tmp_path / "session.go").read_text() == saved
    assert (tmp_path / "other.go").read_text().count("commands of Rewind") == 1


def test_an_exercise_of_the_page(talk: Talk, tmp_path: Path) -> None:
    source = Path(example("lock_order")).read_text()
    script = ["// version: 1", "// exercise: Untie it", "// task: Let it end.", '// goal: {"end":"ended"}', "// begins: 1", "run 4"]
    (tmp_path / "task.go").write_text(source + "\n// commands of Rewind:\n" + "".join(f"// {line}\n" for line in script))
    told = talk("task.go", "run 2", "save solved.go").stdout
    assert told.startswith("Exercise: Untie it. Let it end.\n1 command of task.go was taken, ")
    saved = (tmp_path / "solved.go").read_text()
    assert all(f"\n// {line}\n" in saved for line in script[1:]) and saved.endswith("// run 4\n// run 2\n")


def test_a_file_with_blanks_in_its_name(talk: Talk, tmp_path: Path) -> None:
    talk(example("lock_order"), "step g0", "save my own session")
    assert (tmp_path / "my own session").exists()
    assert "1 command of my own session was taken" in talk(example("lock_order"), "load my own session").stdout


def steps_in(text: str) -> list[str]:
    return [line for line in text.splitlines() if line.startswith("| ") and "#" in line]


def test_restart(talk: Talk) -> None:
    shown = answers(talk(example("lock_order"), "break 8", "run 100", "restart", "log", "run 100").stdout)
    assert shown[3] == ["ok 0"]
    assert shown[4][0].endswith("break 8")


def test_a_restart_where_the_file_is_broken_now(talk: Talk, tmp_path: Path, rewind: str) -> None:
    """The sentence is that of the start, and the session goes on."""
    path = tmp_path / "x.go"
    path.write_text("package main\nfunc main() {\n\tx := 1\n\tprintln(x)\n}\n")
    shell = Shell(rewind, str(path), Screen(io.StringIO(), lambda: False), Interrupts(), None)
    shell.obey("step g0")
    path.write_text('package main\nimport "fmt"\nfunc main() {}\n')
    out = shell.screen.out = io.StringIO()
    for line in ("restart", "step g0", "history"):
        shell.obey(line)
    assert "x.go:2:1: imports are not supported\n" in out.getvalue() and "ok g0#2 " in out.getvalue()
    assert "g0#1 " in out.getvalue().split("ok g0#2")[1]
    shell.end()


def test_expressions_and_channels(talk: Talk) -> None:
    asked = ["print len(jobs)", "p 2 * 3 + len(jobs)", "print jobs", "goroutine g0.1", "print results", "print 1/0"]
    shown = answers(talk(example("worker_pool"), "run 12", *asked).stdout)
    assert re.match(r"len\(jobs\) = \d+$", shown[1][0])
    assert re.match(r"2 \* 3 \+ len\(jobs\) = \d+$", shown[2][0])
    assert any(line.startswith("jobs (g0/c1): open") for line in shown[3])
    assert any(line.startswith("results (g0/c2): open") for line in shown[5])
    assert shown[6] == ["'1/0' has no value: it divides by zero"]


def test_a_statement_that_is_cut_has_a_mark(talk: Talk, tmp_path: Path) -> None:
    makes = "a, b, c := make(chan int, 10), make(chan int, 10), make(chan struct{}, 10)"
    (tmp_path / "long.go").write_text(f"package main\nfunc main() {{\n\t{makes}\n\tprintln(len(a), len(b), len(c))\n}}\n")
    shown = talk("long.go", "run 1", "history").stdout
    assert re.search(r"3: a, b, c := make.*\.\. makes g0/c1$", shown, re.MULTILINE)


def test_free_is_no_word_without_workers(talk: Talk) -> None:
    assert "free N" not in talk(example("lock_order"), "help").stdout


@pytest.mark.parametrize("blank", ["\u00a0", "\u2003", "\u3000", "\x1c", "\x85", "\u2028", "\u200b", "\ufeff", "\x0b"])
def test_blanks_of_every_alphabet(talk: Talk, blank: str) -> None:
    done = talk(example("lock_order"), blank, blank * 3, f"step{blank}g0", f"{blank}goroutines")
    assert done.stderr == "" and done.returncode == 0
    assert "ok g0#1 make" in done.stdout and "* g0 " in done.stdout


@pytest.mark.parametrize("closed, status, said", [
    ("<&-", 3, "rewind-shell: standard input is closed\n"),
    (">&-", 3, "rewind-shell: standard output is closed\n"),
    (">/dev/full", 3, "rewind-shell: standard output cannot be written: No space left on device\n"),
    ("2>&- <&-", 3, ""),
])  # fmt: skip
def test_a_stream_that_is_closed_or_full(closed: str, status: int, said: str, rewind: str) -> None:
    words = [sys.executable, str(SHELL), "--rewind", rewind, example("lock_order")]
    done = subprocess.run(["sh", "-c", f'"$@" {closed}', "sh", *words], input="why\nrun 9\n", capture_output=True, text=True, timeout=60)
    assert (done.returncode, done.stderr) == (status, said)


def test_the_version_is_that_of_the_program(rewind: str) -> None:
    version = subprocess.run([rewind, "--version"], capture_output=True, text=True, check=True).stdout.split(" ", 1)[1].strip()
    done = subprocess.run([sys.executable, str(SHELL), "--rewind", rewind, "--version"], capture_output=True, text=True, check=True)
    assert done.stdout.startswith(f"rewind-shell {version}")


def test_a_version_between_releases_has_its_commit(tmp_path: Path) -> None:
    """A program that names its own commit is not told another one."""
    commit = output(["git", "-C", str(CLIENTS), "rev-parse", "--short", "HEAD"])
    unreleased = f"1.2.0-dev ({commit})" if commit else "1.2.0-dev"
    for said, told in (("1.2.0-dev", unreleased), ("1.2.0-dev+abc", "1.2.0-dev+abc"), ("1.1.0", "1.1.0")):
        path = tmp_path / "rewind"
        path.write_text(f"#!/bin/sh\necho rewind {said}\n")
        path.chmod(0o755)
        assert version_of(str(path)) == told


@pytest.mark.parametrize("word", ["quit", "q", "exit"])
def test_leaving(talk: Talk, word: str) -> None:
    done = talk(example("lock_order"), word, "step g0")
    assert done.stdout == f"> {word}\nok\n" and done.returncode == 0


def fake(tmp_path: Path, body: str) -> str:
    """A program in place of Rewind, that answers the first question and then does something else."""
    path = tmp_path / "fake"
    path.write_text(
        f"#!{sys.executable}\nimport sys, time, os, signal\nsys.stdin.readline()\nprint({FIRST!r}, flush=True)\n{body}\n"
    )
    path.chmod(path.stat().st_mode | stat.S_IXUSR)
    return str(path)


@pytest.mark.parametrize(
    "body, sentence",
    [
        ("sys.stdin.readline(); os.kill(os.getpid(), signal.SIGKILL)", "signal 9 ended it"),
        (
            "sys.stdin.readline(); print('what', flush=True); time.sleep(9)",
            "gave an answer to 'step g0' that means nothing: what",
        ),
        ("sys.stdin.readline(); sys.exit(3)", "reading or writing failed"),
        ("sys.stdin.readline()\nwhile True: sys.stdout.write('x' * 100_000)", "gave an answer of more than 268435456 bytes"),
    ],
)
def test_a_core_that_fails(talk: Talk, tmp_path: Path, body: str, sentence: str) -> None:
    done = talk(example("lock_order"), "step g0", "step g0", program=fake(tmp_path, body))
    assert sentence in done.stdout and "'restart' begins the program anew" in done.stdout
    assert done.returncode == 3 and not done.stderr


def test_a_core_that_answers_nothing(
    rewind: str, tmp_path: Path, monkeypatch: pytest.MonkeyPatch, capsys: pytest.CaptureFixture[str]
) -> None:
    """After 30 seconds, which are half a second here, that is told; what was done is saved, and the session begins anew."""
    hangs = fake(tmp_path, "sys.stdin.readline(); time.sleep(60)")
    assert TIMEOUT == 30
    monkeypatch.setattr(
        "rewind_shell.shell.open_session", lambda program, path, settings: open_session(program, path, replace(settings, timeout=0.5))
    )
    monkeypatch.setenv("XDG_STATE_HOME", str(tmp_path))
    shell = Shell(hangs, str(EXAMPLES / "lock_order.go"), Screen(sys.stdout, lambda: False), Interrupts(), None)
    shell.script.begin(shell.program)
    shell.obey("step g0")
    said = capsys.readouterr().out
    assert "gave no answer within 0.5 seconds, and was ended" in said
    assert f"'restart' begins the program anew; the commands so far are in {shell.script.path}" in said
    assert Path(shell.script.path).read_text().splitlines()[1:] == ["step g0"]
    shell.rewind = rewind
    shell.obey("restart")
    shell.obey("step g0")
    assert "ok g0#1 make" in capsys.readouterr().out
    shell.end()


@pytest.mark.parametrize(
    "words, sentence, status",
    [
        (["/nowhere/x.go"], "there is no file /nowhere/x.go", 2),
        ([], "name a FILE", 2),
        (["/"], "/ is a folder: name the source in it", 2),
        (["--rewind", "/nowhere/rewind", "x.go"], "no file x.go", 2),
        (["--rewind", "/nowhere/rewind", "SOURCE"], "there is no program /nowhere/rewind", 2),
        (["IMPORT"], "IMPORT:2:1: ", 1),
    ],
)
def test_a_command_line_that_is_refused(tmp_path: Path, words: list[str], sentence: str, status: int) -> None:
    (tmp_path / "SOURCE").write_text("package main\nfunc main() {}\n")
    (tmp_path / "IMPORT").write_text('package main\nimport "fmt"\nfunc main() {}\n')
    done = subprocess.run([sys.executable, str(SHELL), *words], input="", capture_output=True, text=True, cwd=tmp_path)
    assert done.returncode == status and done.stdout == ""
    assert sentence in done.stderr
    assert status == 1 or done.stderr.count("\n") == 1


def test_a_source_of_the_greatest_length(talk: Talk, tmp_path: Path) -> None:
    head = "package main\nfunc main() {\n\tx := 1\n"
    text = head + "\tx = x + 1\n" * 1000 + "\tprintln(x)\n}\n//"
    (tmp_path / "long.go").write_text(text + "p" * (1_048_576 - len(text)))
    shown = answers(talk("long.go", "run 500", "list", "why", "history 2").stdout)
    assert shown[0][0] == "ok 500 count" and len(shown[1]) == 11 and len(shown[3]) == 3
    (tmp_path / "long.go").write_text(text + "p" * 1_048_577)
    done = talk("long.go")
    assert done.returncode == 1 and "long.go" in done.stderr


def test_a_run_in_portions_is_the_run(session: Open, monkeypatch: pytest.MonkeyPatch) -> None:
    """Where a run ends, with breakpoints, does not depend on the size of the portions."""
    ends = []
    for portion in (1, 2, 7, 50_000):
        monkeypatch.setattr(motion, "RUN_PORTION", portion)
        one = session("worker_pool")
        found = []
        one.core.set_breakpoint(14)
        one.core.set_breakpoint(6)
        for most in (20, 1000, 1, 1000, 1000):
            stop = finished(motion.forward(one, lambda: {6, 14}, "g0", most))
            found.append((stop.ran, stop.goroutine, len(one.log())))
        ends.append(found)
    assert ends[0] == ends[1] == ends[2] == ends[3]


def finished(movement: motion.Motion) -> motion.Stop:
    while True:
        try:
            next(movement)
        except StopIteration as over:
            stop: motion.Stop = over.value
            return stop


def test_a_run_can_be_left_between_portions(session: Open, monkeypatch: pytest.MonkeyPatch) -> None:
    monkeypatch.setattr(motion, "RUN_PORTION", 10)
    one = session("starved_select")
    movement = motion.forward(one, lambda: set(), "g0")
    assert [next(movement), next(movement)] == [10, 20]
    movement.close()
    assert len(one.core.log()) == 20


def test_backward_to_a_breakpoint(session: Open, core: Callable[[str], Core]) -> None:
    one = session("off_by_one")
    one.run(1000)
    stop = finished(motion.backward(one, lambda: {14}))
    assert (stop.reason, stop.goroutine, stop.line) == (motion.StopReason.BREAKPOINT, "g0.2", 14)
    assert finished(motion.backward(one, lambda: set())).reason is motion.StopReason.ENTRY


def test_a_restart_takes_the_file_as_it_is_then(rewind: str, tmp_path: Path, capsys: pytest.CaptureFixture[str]) -> None:
    source = tmp_path / "changed.go"
    source.write_text("package main\nfunc main() {\n\tprintln(1)\n}\n")
    shell = Shell(rewind, str(source), Screen(sys.stdout, lambda: False), Interrupts(), None)
    source.write_text("package main\n\nfunc main() {\n\tx := 2\n\tprintln(x)\n}\n")
    shell.obey("list 3")
    assert "println(1)" in capsys.readouterr().out
    shell.obey("restart")
    shell.obey("list 4")
    assert "x := 2" in capsys.readouterr().out
    shell.end()


def test_a_value_is_told_where_its_receive_began(talk: Talk) -> None:
    shown = answers(talk(example("lost_update"), "run 1000", "direct g0#9", "direct g0#8").stdout)
    told = [[part.strip() for part in lines] for lines in shown[1:]]
    assert "which ended the wait of g0#8" in told[0]
    assert not any("other half of the message" in line for line in told[0])
    assert any(re.search(r"<-done +waits to receive from done, until g0\.[12]#\d+ with true", line) for line in told[1])


def test_how_far_back_a_long_log_is_known_is_told(talk: Talk) -> None:
    shown = answers(talk(example("starved_select"), "run 20005", "why", "history g0", "history all", "history 3").stdout)
    told = "(lines, channels and values are known of the last 20000 of 20005 steps: what came of the others is not told here)"
    assert [lines[-1] for lines in shown[1:4]] == [told] * 3
    assert told not in shown[4]
