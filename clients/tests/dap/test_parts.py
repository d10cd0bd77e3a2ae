"""Parts that need no editor: where statements begin, what became of printed lines, and the meanings of codes."""
from __future__ import annotations

import glob
import os
import re
import subprocess
import threading
from pathlib import Path

import pytest

from rewind_client import finding
from rewind_client.errors import NotFound
from rewind_client.meanings import FAULTS, REFUSED_COMMANDS, REFUSED_SOURCES
from rewind_client.printed import Change, change
from rewind_client.program import Program
from rewind_dap.inbox import MOST_BYTES, Inbox
from rewind_dap.told import changes_in_words

from .client import DATA, REPOSITORY, REWIND

FORMS = b"""\xef\xbb\xbfpackage main

func f(
	a int,
) struct{} {
	println(
		a)
	return struct{}{} // }
}

func g(c chan struct{}) chan struct{} { /* {
*/	return c }

func main() {
	println("{ //", 1)
	c := make(chan struct{}); d := make(chan int)
outer:
	for i := 0; struct{}{} == f(
		i); i++ {
		if x := <-d; x > 1 {
			continue outer
		} else if f(2) == f(3) {

		}
		select {
		case v := <-d:
			println(v)
		case d <- 4:
		default:
			println(5)
		}
		for v := range g(make(chan struct{})) { _ = v }
	}
	go f(
		5)
}
"""


class TestLines:
    def test_where_statements_begin(self, tmp_path: Path) -> None:
        source = Program(FORMS)
        assert source.statements == [6, 8, 9, 12, 15, 16, 18, 19, 20, 21, 22, 25, 27, 30, 32, 34, 36]
        assert source.calling_lines("main", "f") == [18, 22]
        assert source.calling_lines("main", "g") == [32]
        assert [source.heading(name) for name in ("f", "g", "main", "h")] == [3, 11, 14, 0]
        path = tmp_path / "forms.go"
        path.write_bytes(FORMS)
        assert len(stands(str(path))) > 10
        assert set(stands(str(path))) <= set(source.statements)
        assert [source.statement_at(line) for line in (1, 17, 18, 23, 37)] == [6, 18, 18, 25, None]

    def test_each_step_stands_where_a_statement_begins(self) -> None:
        programs = glob.glob(os.path.join(DATA, "*.go")) + glob.glob(os.path.join(REPOSITORY, "bench", "programs", "*.go"))
        seen = 0
        for path in sorted(programs):
            with open(path, "rb") as file:
                lines = set(Program(file.read()).statements)
            stood = set(stands(path))
            assert stood <= lines, path
            seen += len(stood)
        assert seen > 150

    def test_any_bytes_are_walked_to_their_end(self) -> None:
        for end in range(len(FORMS)):
            Program(FORMS[:end])
            Program(FORMS[end:])
        Program(bytes(range(256)) * 4)


def stands(path: str) -> list[int]:
    """The lines on which goroutines stand in the first steps of a program; none where it is refused."""
    names = ["g0", "g0.1", "g0.2", "g0.1.1"]
    commands = "".join("run 1\n" + "".join(f"show {name}\n" for name in names) for _ in range(120))
    done = subprocess.run([REWIND, path], input=commands.encode(), stdout=subprocess.PIPE, stderr=subprocess.DEVNULL)
    return [int(line) for line in re.findall(r"^\| g0[.0-9]* \w+ \d+ line (\d+)$", done.stdout.decode(), re.M)]


class TestPrinted:
    def test_what_became_of_printed_lines(self) -> None:
        assert change([], ["a"]) == Change(["a"], [], False)
        assert change(["a"], ["a", "a", "b"]) == Change(["a", "b"], [], False)
        assert change(["a", "b", "c"], ["b"]) == Change([], ["a", "c"], False)
        assert change(["a", "b", "a"], []) == Change([], ["a", "b", "a"], False)
        assert change(["a", "b"], ["b", "a"]) == Change([], [], True)

    def test_it_in_words(self) -> None:
        assert list(changes_in_words([], ["a", "b"])) == [("stdout", "a\nb")]
        many = [str(number) for number in range(103)]
        ((category, text),) = changes_in_words(many, [])
        assert (category, text.split("\n")[-1]) == ("console", "No longer printed: (and 3 lines more)")
        assert "another order" in list(changes_in_words(["a", "b"], ["b", "a"]))[0][1]


class TestMeanings:
    def codes(self, page: str, pattern: str) -> list[str]:
        with open(os.path.join(REPOSITORY, "docs", page), encoding="utf-8") as file:
            return re.findall(pattern, file.read(), re.M)

    def test_each_code_of_the_documents_has_a_meaning(self) -> None:
        assert self.codes("LANGUAGE.md", r"^\| ([SPC]\d+) \|") == list(REFUSED_SOURCES)
        assert self.codes("COMMANDS.md", r"^\| ([NBQ]\d) \|") == list(REFUSED_COMMANDS)
        (faults,) = self.codes("COMMANDS.md", r"^\| `fault F` \| .*: F is (.*) \|$")
        assert re.findall(r"\w+(?=`)", faults) == list(FAULTS)


class TestWaiting:
    def test_messages_that_wait_are_bounded_in_bytes(self) -> None:
        inbox: Inbox[int] = Inbox()

        def put_all() -> None:
            for number in range(4):
                inbox.put(number, MOST_BYTES // 2)

        putting = threading.Thread(target=put_all, daemon=True)
        putting.start()
        seen = []
        for _ in range(4):
            putting.join(0.05)
            assert inbox.bytes <= MOST_BYTES
            seen.append(inbox.get(True))
        assert (seen, inbox.get(False)) == ([0, 1, 2, 3], None)
        inbox.put(5, 10 * MOST_BYTES)
        assert inbox.get(False) == 5


class TestWhichRewind:
    def test_the_order_in_which_it_is_looked_for(self, tmp_path: Path, monkeypatch: pytest.MonkeyPatch) -> None:
        monkeypatch.setattr(finding, "REPOSITORY", str(tmp_path))
        monkeypatch.setenv("PATH", str(tmp_path))
        assert finding.find_rewind() == REWIND
        monkeypatch.setenv("REWIND", "")
        with pytest.raises(NotFound):
            finding.find_rewind()
        for path in (tmp_path / "rewind", tmp_path / "bin" / "rewind"):
            path.parent.mkdir(exist_ok=True)
            path.touch(0o755)
            assert finding.find_rewind() == str(path)
