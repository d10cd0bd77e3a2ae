"""The command line: what the program writes with pipes and at a terminal.

What goes to standard output is the same at a terminal and elsewhere, byte for byte, and that of each example session. The
texts are those of words.
"""
from __future__ import annotations

import os
import re
from pathlib import Path
from typing import NamedTuple

import pytest

from words import make, texts

from support.places import SESSIONS
from support.program import Program
from support.terminal import END, Terminal

PROMPT = "(rewind) "
LONGEST = 3000  # bytes of a line that a terminal takes


class Ran(NamedTuple):
    """What a run wrote, and its exit status."""

    status: int
    out: bytes
    err: bytes


def piped(program: Program, arguments: "list[str | bytes]", script: bytes = b"") -> Ran:
    return Ran(*program.run_words(arguments, script)[:3])


def at_terminal(program: Program, arguments: list[str], output: Path, script: bytes = b"") -> Ran:
    """A run whose standard input and standard error are a terminal. Lines are typed when it asks for them."""
    terminal = Terminal([program.path, *arguments], PROMPT, output=output)
    *lines, last = script.decode("utf-8", "surrogateescape").split("\n")
    # The end of the input; of a line without a newline it has to be said twice.
    terminal.type([f"{line}\n" for line in lines] + [last + END * (2 if last else 1)])
    status = terminal.end()
    return Ran(status, output.read_bytes(), terminal.written.encode("utf-8", "surrogateescape"))


def version_line(version: str) -> bytes:
    """A pattern of what `--version` writes: the unproved build says so, and between releases names its commit."""
    commit = r"(\+[0-9a-f]{7,40}(\.changed)?)?" if version.endswith("-dev") else ""
    return f"rewind {re.escape(version)}(|{commit} \\(unproved build\\))\n".encode()


@pytest.mark.parametrize("flag", ["--help", "-h"])
def test_help(flag: str, program: Program) -> None:
    ran = piped(program, [flag])
    assert (ran.status, ran.err) == (0, b"")
    for text in (make.ABOUT, make.USAGE, make.HELP):
        assert text.encode() in ran.out


@pytest.mark.parametrize("flag", ["--version", "-V"])
def test_version(flag: str, program: Program) -> None:
    ran = piped(program, [flag])
    assert (ran.status, ran.err) == (0, b"")
    assert re.fullmatch(version_line(texts.TEXTS["version"]), ran.out)


@pytest.mark.parametrize("section, entry", make.explanations(), ids=lambda it: str(getattr(it, "name", "")))
def test_an_explanation(section: str, entry: texts.Entry, program: Program) -> None:
    assert piped(program, ["--explain", entry.name]) == Ran(0, make.page(section, entry).encode(), b"")


@pytest.mark.parametrize("code", ["X1", "n3", "N", "N33", "?", "C", ":", ""])
def test_a_strange_code(code: str, program: Program) -> None:
    assert piped(program, ["--explain", code]) == Ran(2, b"", make.strange_code().encode())


REFUSED: "list[list[str | bytes]]" = [
    [], ["a.go", "b.go"], ["a.go", "--check", "b.go"], ["a.go", "--explain", "N3"],
    ["--check", "a.go", "--explain", "N3"], ["--check"], ["--explain"], ["--check", "a.go", "--check", "b.go"],
    ["--fast", "a.go"], ["--workers", "2"], ["a.go", "--workers"], ["a.go", "--workers", "65"],
    ["a.go", "--workers", "-1"], ["a.go", "--workers", "x"], ["a.go", "--workers", ""],
    ["a.go", "--workers", "1", "--workers", "1"], ["--workers", "1", "--check", "a.go"],
    ["--workers", "1", "--explain", "N3"], [b"\xff.go"],
]


@pytest.mark.parametrize("line", REFUSED, ids=str)
def test_a_command_line_that_is_refused(line: "list[str | bytes]", program: Program) -> None:
    ran = piped(program, line)
    assert (ran.status, ran.out) == (2, b"")
    assert ran.err.startswith(b"error: ") and b"try '--help'" in ran.err


def meaning(code: str) -> str:
    """What a terminal says of a code."""
    return str(next(make.meaning_line(entry) for _, entry in make.explanations() if entry.name == code))


class Example:
    """An example session: its script, and what is to be written."""

    def __init__(self, source: Path) -> None:
        self.source, script = source, source.with_suffix(".script")
        self.script = script.read_bytes() if script.exists() else b""
        expected = source.with_suffix(".expect").read_bytes()
        fault = re.search(rb"^rewind: .*\n\Z", expected, re.M)
        self.err = fault[0] if fault else b""
        self.out = expected[: len(expected) - len(self.err)]
        self.is_refused = bool(re.match(rb"rewind: [SPC]\d", self.err))

    def is_typed(self) -> bool:
        """Whether a terminal takes the script."""
        return max(map(len, self.script.split(b"\n"))) < LONGEST and END.encode() not in self.script


SOURCES = sorted(SESSIONS.glob("*.go"))


@pytest.mark.parametrize("source", SOURCES, ids=lambda path: str(path.stem))
def test_a_session_with_pipes(source: Path, program: Program) -> None:
    example, name = Example(source), str(source)
    checked = Ran(int(example.is_refused), b"", example.err if example.is_refused else b"")
    assert piped(program, ["--check", name]) == checked
    ran = piped(program, [name], example.script)
    assert (ran.out, ran.err) == (example.out, example.err)
    assert piped(program, [name, "--workers", "0"], example.script) == ran


@pytest.mark.parametrize("source", [it for it in SOURCES if Example(it).is_typed()], ids=lambda path: str(path.stem))
def test_a_session_at_a_terminal(source: Path, program: Program, tmp_path: Path) -> None:
    """Its output is that with pipes, and on standard error it says in words what was refused."""
    example = Example(source)
    ran = piped(program, [str(source)], example.script)
    there = at_terminal(program, [str(source)], tmp_path / "out", example.script)
    assert (there.status, there.out) == (ran.status, ran.out)
    if ran.status == 1:
        empty = make.FILES["empty"] if source.stat().st_size == 0 else meaning(ran.err.split()[1].decode())
        assert there.err == ran.err + empty.encode()
        return
    lines = ran.out.decode("utf-8", "replace").splitlines()
    asked = [line for line in lines if line.startswith(("no ", "? "))]
    wanted = [meaning(line.split()[1]) if line[0] == "n" else make.NO_COMMAND for line in asked]
    assert there.err.startswith(make.BANNER.encode())
    said = there.err.decode().replace(make.BANNER, "", 1).replace(PROMPT, "")
    assert said.rstrip("\n") == "".join(wanted).rstrip("\n")


# Cases of a select with two faults. What a case waits for is part of the select, so its fault comes before that of a body.
TWO_FAULTS = {
    "a name that is not declared": "case v := <-c:\n\t\tprintln(v + true)\n\tcase <-missing:\n",
    "a variable of another case": "case v := <-c:\n\t\tprintln(v + true)\n\tcase c <- v:\n",
}


@pytest.mark.parametrize("cases", TWO_FAULTS.values(), ids=TWO_FAULTS.keys())
def test_which_of_two_faults_is_named(cases: str, program: Program, tmp_path: Path) -> None:
    source = tmp_path / "two_faults.go"
    source.write_text(f"package main\nfunc main() {{\n\tc := make(chan int)\n\tselect {{\n\t{cases}\t}}\n}}\n")
    assert piped(program, ["--check", str(source)]) == Ran(1, b"", b"rewind: C1 at 4:2\n")


def made(name: str, folder: Path) -> Path:
    """A path that is no program: nothing, a folder, an empty file, one of bytes that are no text, or one that may not be read."""
    path = folder / name
    if name == "folder":
        path.mkdir()
    elif name != "missing":
        path.write_bytes({"empty": b"", "binary": b"package main\xff\n", "forbidden": b"package main\n"}[name])
    if name == "forbidden":
        path.chmod(0)
        if os.access(path, os.R_OK):
            pytest.skip("nothing is forbidden to this user")
    return path


@pytest.mark.parametrize("flag", [[], ["--check"]], ids=["run", "check"])
@pytest.mark.parametrize("name", ["missing", "folder", "empty", "binary", "forbidden"])
def test_a_file_that_is_no_program(name: str, flag: list[str], program: Program, tmp_path: Path) -> None:
    path = made(name, tmp_path)
    line = piped(program, [*flag, str(path)])
    assert (line.status, line.out) == (1, b"")
    if name in ("empty", "binary"):
        assert re.fullmatch(rb"rewind: [SP]1 at \d+:\d+\n", line.err)
    else:
        assert line.err == f"rewind: cannot read {path}\n".encode()
    words = Ran(1, b"", line.err + make.FILES[name].encode())
    assert at_terminal(program, [*flag, str(path)], tmp_path / "out") == words
