"""Real Go, carried over: each program of carry/testdata, and what is refused.

Each program is carried, and is one of the language. Random schedules come to no other outcomes than those in NAME.outcomes, to which
`--record` adds what it finds. In the long form Go runs each program 100 times, and comes to no other outcome, either. A NAME.refused
in place of the outcomes has the notes of a program that is not carried.
"""
from __future__ import annotations

import json
import os
import re
import subprocess
from collections.abc import Callable, Iterator
from pathlib import Path

import pytest

from support.carried import CARRY, Coarse, Outcome, Schedules, built, carried, of_go
from support.forms import short_first
from support.go_sources import go_source
from support.places import TOP

FOLDER = TOP / "carry" / "testdata"
SCHEDULES, FULL_SCHEDULES, RECORDED = 40, 600, 1500
RUNS = 100
MOST_TRIES = 20_000
PROGRAMS = sorted(it for it in FOLDER.glob("*.go") if not it.with_suffix(".refused").exists())
REFUSED = sorted(it.with_suffix(".go") for it in FOLDER.glob("*.refused"))


@pytest.fixture(scope="session", autouse=True)
def carry() -> None:
    """The tool is built of its sources as they are now; Go is installed first, where it is missing."""
    subprocess.run(["make", "-s", "carry"], cwd=TOP, check=True)


@pytest.fixture
def schedules(path: Path, rewind: str, tmp_path: Path) -> Iterator[Schedules]:
    """Schedules of the carried program, which Rewind takes."""
    out = tmp_path / path.name
    done = carried(path, out)
    assert done.returncode == 0, done.stderr
    checked = subprocess.run([rewind, "--check", out], capture_output=True, text=True, check=False)
    assert checked.returncode == 0, checked.stderr
    found = Schedules(rewind, out)
    yield found
    found.scheduler.end()


def known(path: Path) -> set[Outcome]:
    """The outcomes that a program may have."""
    file = path.with_suffix(".outcomes")
    rows = [line.split(" / ") for line in file.read_text(encoding="utf-8").splitlines()] if file.exists() else []
    return {Outcome(row[0], tuple(row[1:])) for row in rows}


@pytest.mark.parametrize("path", PROGRAMS, ids=lambda it: str(it.stem))
def test_outcomes(path: Path, schedules: Schedules, pytestconfig: pytest.Config) -> None:
    if pytestconfig.getoption("--record"):
        found = known(path) | set(schedules.some(RECORDED))
        path.with_suffix(".outcomes").write_text("".join(f"{it.told()}\n" for it in sorted(found)), encoding="utf-8")
        return
    met = set(schedules.some(FULL_SCHEDULES if pytestconfig.getoption("--full") else SCHEDULES))
    assert met <= known(path), sorted(it.told() for it in met - known(path))


@pytest.mark.parametrize("path", short_first(PROGRAMS[::8], PROGRAMS), ids=lambda it: str(it.stem))
def test_as_go_does(path: Path, tmp_path: Path, pytestconfig: pytest.Config) -> None:
    made = built(path, tmp_path)
    runs = RUNS if pytestconfig.getoption("--full") else RUNS // 10
    found = {of_go(made, (1, 2, None)[number % 3]) for number in range(runs)}
    others = [it.told() for it in found if not any(own.stands_for(it) for own in known(path))]
    assert not others, sorted(others)


@pytest.mark.parametrize("path", REFUSED, ids=lambda it: str(it.stem))
def test_refused_in_one_list(path: Path, tmp_path: Path, pytestconfig: pytest.Config) -> None:
    out = tmp_path / path.name
    done = carried(path, out)
    assert done.returncode == 1 and not out.exists() and not done.stdout
    if pytestconfig.getoption("--record"):
        path.with_suffix(".refused").write_text(done.stderr, encoding="utf-8")
    assert done.stderr == path.with_suffix(".refused").read_text(encoding="utf-8")


def test_lines_stay(tmp_path: Path) -> None:
    """A function of the package stands on its own lines, and each place of the map is one of both programs."""
    path = FOLDER / "bank_transfer.go"
    done = carried(path, tmp_path / "out.go", "--map", str(tmp_path / "map.json"))
    assert done.returncode == 0
    told = json.loads((tmp_path / "map.json").read_text(encoding="utf-8"))
    text, source = told["text"].splitlines(), path.read_text(encoding="utf-8").splitlines()
    assert told["text"] == (tmp_path / "out.go").read_text(encoding="utf-8")
    for number, line in enumerate(source):
        if line.startswith("func transfer") or line.startswith("func main"):
            assert text[number].startswith(line.split("(")[0])
    assert all(0 < it["line"] <= len(text) and 0 < it["source"] <= len(source) for it in told["places"])
    assert told["errors"] == ["<nil>", "not enough money"]


PAIR = re.compile(r"```go\n(.*?)```\n\nCarried over:\n\n```go\n(.*?)```", re.S)
PAIRS = PAIR.findall((TOP / "docs" / "CARRYING.md").read_text(encoding="utf-8"))


@pytest.mark.parametrize("number", range(len(PAIRS)))
def test_rules_as_documented(number: int, tmp_path: Path) -> None:
    """What docs/CARRYING.md shows of a rule is what the tool writes, but for empty lines."""
    path, out = tmp_path / "rule.go", tmp_path / "out.go"
    path.write_text(PAIRS[number][0], encoding="utf-8")
    assert carried(path, out).returncode == 0
    lines = [line for line in out.read_text(encoding="utf-8").splitlines() if line.strip()]
    assert "\n".join(lines) + "\n" == PAIRS[number][1]


@pytest.mark.parametrize(
    ("words", "status", "said"),
    [
        ([], 2, "usage: "),
        (["absent.go"], 2, "no such file"),
        (["a.go", "b.go"], 2, "one file at a time"),
        (["--go", "new", "a.go"], 2, "--go takes a version"),
        (["--colour", "a.go"], 2, "usage: "),
    ],
)
def test_command_line(words: list[str], status: int, said: str) -> None:
    done = subprocess.run([CARRY, *words], capture_output=True, text=True, check=False)
    assert done.returncode == status and said in done.stderr


TWO_LOCKS = """package main

import "sync"

func main() {
	var a, b sync.Mutex
	var wg sync.WaitGroup
	wg.Add(2)
	go func() {
		defer wg.Done()
		a.Lock()
		b.Lock()
		b.Unlock()
		a.Unlock()
	}()
	go func() {
		defer wg.Done()
		b.Lock()
		a.Lock()
		a.Unlock()
		b.Unlock()
	}()
	wg.Wait()
}
"""


@pytest.fixture
def two_locks(tmp_path: Path) -> Path:
    path = tmp_path / "two_locks.go"
    path.write_text(TWO_LOCKS, encoding="utf-8")
    return path


def client(name: str, path: Path, given: str = "", carry: str = str(CARRY)) -> subprocess.CompletedProcess[str]:
    settings = {**os.environ, "REWIND_CARRY": carry}
    return subprocess.run([TOP / "clients" / name, path], input=given, capture_output=True, text=True, timeout=60, env=settings, check=False)


def test_in_the_shell(two_locks: Path) -> None:
    """The shell says that it carries a source over, takes breakpoints on its lines, and shows its text."""
    done = client("rewind-shell", two_locks, "break 12\nrun 1000\nwhy\n")
    assert done.stdout.startswith("two_locks.go is Go that was carried over: 'rewind-carry two_locks.go' tells")
    assert "Breakpoint on line 12: g0.1 comes to b.Lock()" in done.stdout and done.returncode == 0, done.stdout


def test_in_the_hunt(two_locks: Path) -> None:
    """The hunt finds the deadlock, and tells the lines of the source."""
    done = client("rewind-hunt", two_locks)
    assert "two_locks.go is Go that was carried over" in done.stderr
    assert "deadlock: no goroutine can go on" in done.stdout and "main_func1 at line 12 (b.Lock())" in done.stdout
    assert "A cycle: g0.1 waits for g0.2, g0.2 waits for g0.1." in done.stdout


def test_lines_of_the_source_in_the_shell(two_locks: Path) -> None:
    """`list` shows the source, `carried` what is run, and a breakpoint is removed by its line in the source."""
    done = client("rewind-shell", two_locks, "break 12\nrun 1000\nlist\nhistory 3\ncarried\nclear 12\nbreak\n")
    assert "=>   12  \t\tb.Lock()   <- g0.1".replace("\t", "    ") in done.stdout, done.stdout
    assert "11: a.Lock()" in done.stdout and "12      b <- struct{}{}" in done.stdout, done.stdout
    assert "no breakpoint is set" in done.stdout, done.stdout


def test_a_panic_in_the_shell() -> None:
    """A panic of the source is told at its line."""
    done = client("rewind-shell", FOLDER / "panic_in_worker.go", "run 1000\n")
    assert 'in g0.1 at line 7: panic("division by zero in worker")' in done.stdout, done.stdout


SAYS = """package main

import (
	"errors"
	"fmt"
)

var errNone = errors.New("none left")

func ask(name string, n int, out chan string) error {
	out <- fmt.Sprintf("%s-%d", name, n)
	return errNone
}

func main() {
	out := make(chan string, 2)
	err := ask("bob", -2, out)
	fmt.Println(<-out, err)
}
"""


def test_texts_in_the_shell(tmp_path: Path) -> None:
    """A number that stands for a text is shown as its text: in a variable, in a channel, and where it is handed over."""
    path = tmp_path / "says.go"
    path.write_text(SAYS, encoding="utf-8")
    done = client("rewind-shell", path, "break 12\nrun 1000\nbt\nprint name\nprint out\nhistory 20\nrun 1000\n")
    assert 'name="bob" n=-2 out=out (g0/c1) errNone="none left"' in done.stdout, done.stdout
    assert 'name = "bob"   (in ask)' in done.stdout and 'open, 1 of 2 items: "bob--2"' in done.stdout, done.stdout
    assert 'sends "bob--2" to out' in done.stdout and "prints: bob - -2 none left" in done.stdout, done.stdout


def test_texts_in_the_hunt(tmp_path: Path) -> None:
    """The steps to a finding tell the texts that are handed over."""
    path = tmp_path / "says.go"
    path.write_text(SAYS.replace("make(chan string, 2)", "make(chan string)"), encoding="utf-8")
    done = client("rewind-hunt", path)
    assert 'waits to send "bob--2" to out' in done.stdout, done.stdout


def test_a_search_in_the_shell(two_locks: Path) -> None:
    """A search of all schedules finds the deadlock, and `why` tells the lines of the source."""
    done = client("rewind-shell", two_locks, "search\nfollow\nwhy\n")
    assert "ends in a deadlock" in done.stdout and "at line 12: b.Lock()" in done.stdout, done.stdout
    assert "at line 19: a.Lock()" in done.stdout and "called from main, line 23: wg.Wait()" in done.stdout, done.stdout


def test_findings_of_the_hunt_as_data(two_locks: Path) -> None:
    """The places of what was found are lines of the source."""
    words = [str(TOP / "clients" / "rewind-hunt"), "--sarif", str(two_locks)]
    settings = {**os.environ, "REWIND_CARRY": str(CARRY)}
    done = subprocess.run(words, capture_output=True, text=True, timeout=60, env=settings, check=False)
    results = json.loads(done.stdout)["runs"][0]["results"]
    lines = {place["physicalLocation"]["region"]["startLine"] for it in results for place in it["locations"]}
    assert lines == {12, 19, 23}, lines


def test_what_is_left_is_told_at_once() -> None:
    """Where a source is refused and not carried over, each place is told beside the refusal."""
    for name in ("rewind-shell", "rewind-hunt"):
        done = client(name, FOLDER / "much_left_out.go")
        assert done.returncode and "These places are not carried:" in done.stderr
        assert done.stderr.count("\n  ") >= 10, done.stderr


def test_without_the_tool(two_locks: Path) -> None:
    """Where there is no tool, the refusal stands alone."""
    done = client("rewind-shell", two_locks, carry="")
    assert done.returncode == 1 and "import" in done.stderr and "carried" not in done.stderr


def test_hostile_texts(tmp_path: Path) -> None:
    """A text of any bytes is refused in words, and one that is too long, too."""
    for at, text in enumerate((b"", b"\x00\xff", b"package main", b"package main\nfunc main() { " + b"(" * 5000, b"x" * (1 << 20 | 1))):
        path = tmp_path / f"{at}.go"
        path.write_bytes(text)
        done = carried(path, tmp_path / "out.go")
        assert done.returncode in (1, 2) and done.stderr and "panic" not in done.stderr, done.stderr


def test_long_source(tmp_path: Path) -> None:
    """A source of nearly 1 MiB is carried over in seconds."""
    path = tmp_path / "long.go"
    lines = "".join(f"\tif n == {number} {{\n\t\tn += {number}\n\t}}\n" for number in range(30_000))
    path.write_text(f"package main\n\nimport \"fmt\"\n\nfunc main() {{\n\tn := 1\n{lines}\tfmt.Println(n)\n}}\n", encoding="utf-8")
    assert 900_000 < path.stat().st_size < 1 << 20
    assert carried(path, tmp_path / "out.go", "--quiet").returncode == 0


@pytest.mark.timeout(1200)
@pytest.mark.parametrize("number", short_first(range(6), range(500)))
def test_a_random_program(number: int, rewind: str, tmp_path: Path, pytestconfig: pytest.Config, told: Callable[[str], None]) -> None:
    """What Go comes to, some schedule of the carried program does, too."""
    path, out = tmp_path / "random.go", tmp_path / "out.go"
    path.write_text(go_source(number), encoding="utf-8")
    done = carried(path, out)
    assert done.returncode == 0, done.stderr
    made = built(path, tmp_path)
    runs = RUNS if pytestconfig.getoption("--full") else RUNS // 10
    left = {of_go(made, (1, 2, None)[it % 3]) for it in range(runs)}
    outcomes, schedules = len(left), Schedules(rewind, out, Coarse)
    try:
        tries = 0
        while left and tries < MOST_TRIES:
            own = schedules.outcome(tries)
            left = {it for it in left if not (own and own.stands_for(it))}
            tries += 1
    finally:
        schedules.scheduler.end()
    assert not left, [it.told() for it in left]
    told(f"{outcomes} outcomes, {tries} schedules")
