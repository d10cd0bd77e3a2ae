"""Each growth of a worker refused in turn: what stands after it, and that the other worker goes on.

Two workers take a grant of steps. The k-th growth that either of them wants is refused, for k = 1, 2, .. until they want no
more. The worker that was refused ends, and the other takes all steps that are left. Each is done once more with all growths
after it refused: then both end, with a part of the grant.

Either way the log and the state are those of a session without workers that takes the steps of the log anew, a step after it
is taken, and the program ends well, which it does only where both workers came back.
"""
from __future__ import annotations

import re
from collections.abc import Callable
from pathlib import Path

import pytest

from support.program import Preloaded, Program
from support.replies import Step, questions, replies_in
from support.session import Session, comes
from support.tally import Tally

SOURCE = """package main

func spin(n int) int {
	for i := 0; i < n; i++ {
		println("turn", i)
	}
	return n
}

func main() {
	go spin(9)
	go spin(200)
	println(spin(1))
}
"""
# `main` starts both goroutines.
BEFORE = ["step g0", "step g0"]
GRANT = 300


class Beside:
    """A program with two workers."""

    def __init__(self, program: Program, preloaded: Preloaded, source: Path) -> None:
        self.program, self.preloaded, self.source = program, preloaded, str(source)

    def anew(self, log: list[Step], commands: list[str]) -> list[list[str]]:
        """The replies of a session without workers that takes these steps."""
        lines = [f"step {step.goroutine}" for step in log] + commands
        ended = self.program.run(SOURCE.encode(), "".join(f"{line}\n" for line in lines).encode())
        return replies_in(ended.output.decode())[len(log) :]

    def started(self, growth: int, is_rest: bool) -> Session:
        """A session in which a growth of a worker is refused, and with `is_rest` all after it."""
        settings = {"REFUSE_OTHERS": "1", "REFUSE_AT": str(growth), "REFUSE_COUNT": "1", **self.preloaded.environment}
        settings.update({"REFUSE_REST": "1"} if is_rest else {})
        return Session(self.program.path, self.source, "--workers", "2", environment=settings)

    def wrong_with(self, growth: int, is_rest: bool) -> tuple[str, int]:
        """What is wrong after this refusal, if something is, and how many growths the workers wanted."""
        session = self.started(growth, is_rest)
        session.ask_all([*BEFORE, f"free {GRANT}"])

        def is_whole() -> bool:
            return int(session.ask("log")[-1].split()[1]) == len(BEFORE) + GRANT

        has_ended = comes(lambda: is_whole() or session.threads() == 1)
        log, wrong = session.log(), ""
        after = [line.decode() for line in questions(log)] + ["step g0", "log"]
        if not has_ended or not (is_rest or is_whole()):
            wrong = f"{len(log) - len(BEFORE)} of {GRANT} steps were taken"
        elif session.ask_all(after) != self.anew(log, after):
            wrong = "another state than that of the steps in the log"
        left = session.close()
        found = re.search(r"growths (\d+)", left.error)
        assert found, left
        return wrong or (f"status {left.status}" if left.status else ""), int(found[1])


@pytest.mark.parametrize("is_rest", [False, True], ids=["alone", "with all after it"])
def test_a_worker(is_rest: bool, program: Program, preloaded: Preloaded, tmp_path: Path, told: Callable[[str], None]) -> None:
    (tmp_path / "source.go").write_text(SOURCE, encoding="utf-8")
    tally, beside = Tally(), Beside(program, preloaded, tmp_path / "source.go")
    growth, wanted = 1, 1
    while growth <= wanted:
        wrong, wanted = beside.wrong_with(growth, is_rest)
        tally.note("growths of a worker refused", wrong and f"growth {growth}: {wrong}")
        growth += 1
    told(tally.check())
