"""What is not carried over is told in one list: each obstacle, wherever it stands, and bad input in Go's words."""
from __future__ import annotations

import os
import re
import subprocess
from pathlib import Path

import pytest

from support.carried import CARRY, carried
from support.places import TOP

# A statement that is not carried, with what is said of it.
OBSTACLES = {
    "map": ("seen := map[[2]int]bool{}; _ = seen", "a map with such keys is not carried"),
    "printed map": ("fmt.Println(map[int]int{1: n})", "only numbers, truth values, texts"),
    "interface": ("var any1 interface{} = n; _ = any1", "interfaces are not carried"),
    "real number": ("half := 0.5; _ = half", "is not carried"),
    "made text": ("text := fmt.Sprintln(n); _ = text", "a text that is made while the program runs"),
    "ordered text": ('_ = fmt.Sprint(n) < "a"', "texts that are put in order"),
    "goto": ("goto end\n\tend:", "goto is not carried"),
    "append": ("list := append([]int{1}, n); _ = list", "append is carried only"),
    "recover": ("recover()", "recover is not carried"),
    "defer in a loop": ("for i := 0; i < n; i++ { defer fmt.Println(i) }", "a defer within a loop with values of its own"),
    "wide array": ("var wide [100]int; _ = wide", "more than 64 elements"),
    "part of a package": ("runtime.NumGoroutine()", "NumGoroutine is not carried"),
    "verb": ('fmt.Printf("%x", n)', "verb"),
    "type switch": ("switch any2 := interface{}(n).(type) { default: _ = any2 }", "is not carried"),
}

# Where a statement may stand: in main, in what main calls with something that is not carried, in a goroutine, in a method.
PLACES = """package main

import (
	"fmt"
	"runtime"
)

type worker struct{ id int }

func (w *worker) work(n int) {
	%(method)s
}

func called(n int, all float64) int {
	%(called)s
	return n
}

func result(n int) (float64, interface{}) {
	%(result)s
	return 1, nil
}

func main() {
	n := runtime.GOMAXPROCS(0)
	%(main)s
	fmt.Println(called(n, 1.5))
	go func() {
		%(goroutine)s
	}()
	(&worker{n}).work(n)
	result(n)
	for range []float64{} {
		go func(n int) {
			%(inner)s
		}(n)
	}
}
"""
WHERE = re.findall(r"%\((\w+)\)s", PLACES)
LEFT = re.compile(r"^[\w.]+:(\d+):\d+: not carried \((\w[\w-]*)\): (.*)", re.M)


def left(text: str, folder: Path) -> list[tuple[int, str, str]]:
    """The places that are not carried: line, rule, what is said."""
    path = folder / "program.go"
    path.write_text(text, encoding="utf-8")
    done = carried(path, folder / "out.go")
    assert done.returncode == 1 and not (folder / "out.go").exists(), done.stderr
    return [(int(line), rule, said) for line, rule, said in LEFT.findall(done.stderr)]


@pytest.mark.parametrize("where", WHERE)
@pytest.mark.parametrize("name", OBSTACLES)
def test_an_obstacle_is_told_wherever_it_stands(name: str, where: str, tmp_path: Path) -> None:
    statement, said = OBSTACLES[name]
    text = PLACES % {it: f"{statement} // here" if it == where else "_ = n" for it in WHERE}
    first = text[: text.index("// here")].count("\n") + 1
    lines = range(first - statement.count("\n"), first + 1)
    found = left(text, tmp_path)
    assert any(line in lines and said in told for line, _, told in found), found


def test_each_field_and_result_is_told(tmp_path: Path) -> None:
    text = """package main

type store struct {
	byName map[string]float64
	any    interface{}
	half   float64
}

func open() (map[string]float64, float64) { return nil, 0 }

func main() {
	s := store{}
	_ = s
	open()
}
"""
    assert {line for line, _, _ in left(text, tmp_path)} >= {4, 5, 6, 9}


@pytest.mark.parametrize(
    ("text", "line", "said"),
    [
        ("package main\n\nfunc main() {\n\tx := \n}\n", 5, "syntax error: expected operand, found '}'"),
        ("package main\n\nfunc main() {\n\tfor {\n", 4, "syntax error: expected '}', found 'EOF'"),
        ("package main\n\nfunc main() {\n\tx := 1 +* 2\n}\n", 4, "Go does not accept this: invalid operation"),
        ("package main\n\nfunc main() {\n\tvar x int = true\n\t_ = x\n}\n", 4, "Go does not accept this: cannot use true"),
        ('package main\n\nimport "net/http"\n\nfunc main() { http.Get("") }\n', 3, "the package net/http is not known here"),
        ('package main\n\nimport "reflect"\n\nfunc main() { reflect.TypeOf(1) }\n', 3, "the package reflect reaches behind the language"),
        ('package main\n\nimport "unsafe"\n\nfunc main() { _ = unsafe.Sizeof(1) }\n', 3, "the package unsafe reaches behind the language"),
        ('package main\n\n// int one() { return 1; }\nimport "C"\n\nfunc main() { C.one() }\n', 4, "the package C reaches behind the language"),
        ("package main\n\nfunc id[T any](x T) T { return x }\n\nfunc main() { println(id(1)) }\n", 3, "a function with type parameters"),
        ("package main\n\ntype box[T any] struct{ x T }\n\nfunc main() { b := box[int]{1}; println(b.x) }\n", 5, "a type with type parameters"),
    ],
)
def test_bad_input(text: str, line: int, said: str, tmp_path: Path) -> None:
    found = left(text, tmp_path)
    assert any(it == line and said in told for it, _, told in found), found


def test_a_function_that_nests_without_end(tmp_path: Path) -> None:
    text = """package main

func loop(n int, f func()) {
	if n == 0 {
		f()
		return
	}
	loop(n-1, func() { f() })
	loop(n-1, func() { f(); f() })
}

func main() { loop(3, func() { println(1) }) }
"""
    assert any("calls itself with other functions" in told for _, _, told in left(text, tmp_path))


def test_a_panic_in_a_function_that_calls_itself(tmp_path: Path) -> None:
    text = """package main

func down(n int) {
	defer println("leaving", n)
	if n == 0 {
		panic("bottom")
	}
	down(n - 1)
}

func main() { down(3) }
"""
    assert any(line == 8 and "calls itself with something deferred" in told for line, _, told in left(text, tmp_path))


@pytest.mark.parametrize("form", ["(", "1 + ", "x.", "func() {", "[]", "*", "a, ", "/*", "`"])
def test_a_mebibyte_of_one_form(form: str, tmp_path: Path) -> None:
    """A text of 1 MiB of one form is refused in words, and soon."""
    path = tmp_path / "long.go"
    head = "package main\n\nfunc main() {\n\tx := "
    path.write_text(head + form * (((1 << 20) - len(head)) // len(form)), encoding="utf-8")
    done = subprocess.run([CARRY, path], capture_output=True, text=True, timeout=60, check=False)
    assert done.returncode == 1 and "not carried" in done.stderr and "goroutine " not in done.stderr, done.stderr[:500]


def test_time() -> None:
    """The programs of testdata are carried over in a tenth of a second of a processor each."""
    for path in sorted((TOP / "carry" / "testdata").glob("*.go"))[::10]:
        before = os.times().children_user
        subprocess.run([CARRY, path, "-o", "/dev/null", "--quiet"], capture_output=True, check=False)
        assert os.times().children_user - before < 0.1, path
