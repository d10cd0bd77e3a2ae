"""The language page: each form that it says is there is accepted, and each that it says is left out is refused.
Each code comes at its place, and the limits are where they are said to be. The sources are in `language.txt`."""
from __future__ import annotations

import re
from collections.abc import Callable

from .checks import Checks
from .examples import Example, check_meaning, entries_of, file_of
from .markdown import page, spans
from .program import Scratch

PAGE = "docs/LANGUAGE.md"
# Codes that come where memory is short.
WITHOUT_SOURCE = {"S8", "P4", "C11"}


def padded(size: int) -> str:
    """A source of so many bytes."""
    text = "package main\nfunc main() {\n}\n//"
    return text + "x" * (size - len(text))


def nested(levels: int) -> str:
    return file_of(f"println({'(' * levels}1{')' * levels})")


def calls(frames: int) -> str:
    """A program whose `main` and functions have so many frames."""
    return f"package main\nfunc f(n int) {{\n\tif n > 1 {{\n\t\tf(n - 1)\n\t}}\n}}\nfunc main() {{\n\tf({frames - 1})\n}}\n"


def generations(count: int) -> str:
    """A program with so many generations of goroutines below `main`."""
    started = "func f(n int) {\n\tif n > 1 {\n\t\tgo f(n - 1)\n\t}\n\tselect {\n\t}\n}\n"
    return f"package main\n{started}func main() {{\n\tgo f({count})\n\tselect {{\n\t}}\n}}\n"


def buffer(size: int) -> str:
    return file_of(f"n := {size}\nc := make(chan int, n)\nprintln(cap(c))")


def source_of(code: str, example: str) -> str:
    """The source of an example in the table of codes."""
    if code == "S7":
        return padded(int(re.sub(r"\D", "", example)))
    if code == "P3":
        return nested(int(re.sub(r".*in (\d+) pairs.*", r"\1", example)))
    text = spans(example)[0]
    if "as line 1" in example:
        return text + "\nfunc main() {\n}\n"
    if "line 2" in example:
        return "package main\n" + text + "\nfunc main() {\n}\n"
    return file_of(text)


def check_codes(checks: Checks, program: Scratch) -> None:
    """Each code comes for its example, at the place that is told; and `--explain` has the meaning that the table has."""
    document = page(PAGE)
    for row in document.rows_of("Code", "Meaning", "Example", "Refused at"):
        code, _, example, where = row.cells
        check_meaning(checks, program, row, code)
        if not example:
            checks.holds(row.place, code in WITHOUT_SOURCE, f"{code} has no example")
            continue
        got = program.check(source_of(code, example))
        place = re.match(r"\d+:\d+", where)
        wanted = f"{code} at {place[0]}" if place else code
        checks.same(row.place, f"{code} of {example}", wanted, got if place else got.split(" ")[0])
        checks.same(row.place, f"status of {code}", 1, program.run(["--check", "checked.go"]).status)


def check_example(checks: Checks, program: Scratch, place: str, example: Example) -> None:
    """An example of `language.txt`: accepted, refused with a code, or run with what it prints."""
    told = program.check(example.source)
    if example.mark == "-":
        checks.same(place, f"--check of {example.text}", example.result, told.split(" ")[0])
    elif checks.same(place, f"--check of {example.text}", "", told) and example.mark == ">":
        lines = [line for reply in program.replies(example.source, ["run 10000", "console"])[1:] for line in reply]
        shown = " / ".join(line[2:] for line in lines if line.startswith("| "))
        checks.same(place, f"what {example.text} prints", example.result, shown)


def check_forms(checks: Checks, program: Scratch) -> None:
    """Each row of the tables of forms has examples, and each example is as the row says."""
    document, examples = page(PAGE), entries_of("language.txt")
    rows = document.rows_of("Form", "What is there", "Left out")
    keys = {f"{row.section} / {row.cells[0].replace('`', '')}": row for row in rows}
    known = {key for key in examples if " / " in key}
    checks.same_sets(PAGE, "the rows with examples", keys, known)
    for key in known & set(keys):
        for example in examples[key]:
            check_example(checks, program, keys[key].place, example)


def check_claims(checks: Checks, program: Scratch) -> None:
    """Each claim that has examples is still made, and holds."""
    document, examples = page(PAGE), entries_of("language.txt")
    for claim in examples:
        if " / " not in claim:
            place = f"{PAGE}:{document.line_of(claim)}"
            checks.holds(PAGE, document.has(claim), f"it no longer says {claim!r} (tests/documents/language.txt)")
            for example in examples[claim]:
                check_example(checks, program, place, example)


def end_of(program: Scratch, source: str) -> str:
    """What a program comes to: the code of its refusal, the fault that stops it, or '' where there is neither."""
    refused = program.check(source).split(" ")[0]
    if refused:
        return refused
    replies = program.replies(source, ["run 100000", "log"])
    last = [line for line in replies[-1] if line.startswith("| ")][-1]
    return last.rpartition(" fault ")[2] if " fault " in last else ""


def constant(number: str) -> str:
    """A program in which a constant of any size is a part."""
    return file_of(f"println({number} < 0)")


# Of each limit: a source that goes up to a number, and one that goes past it.
LIMITS: dict[str, Callable[[int], tuple[str, str]]] = {
    "source text": lambda n: (padded(n), padded(n + 1)),
    "levels of a tree": lambda n: (nested(n - 3), nested(n - 2)),
    "frames of a goroutine": lambda n: (calls(n), calls(n + 1)),
    "counts in a goroutine's name": lambda n: (generations(n), generations(n + 1)),
    "size given to": lambda n: (buffer(n), buffer(n + 1)),
}
# A run never gets so far.
WITHOUT_RUN = ("goroutines that one goroutine starts",)


def check_limits(checks: Checks, program: Scratch) -> None:
    document = page(PAGE)
    for row in document.rows_of("Limit", "Value", "Beyond it"):
        name, value, beyond = row.cells
        ends = re.findall(r"\b[SPC]\d+\b|(?<=`)\w+(?=`)", beyond)
        if "2^63" in value:
            inside, outside = (f"{2 ** 63}", f"-{2 ** 63}"), (f"{2 ** 63 + 1}", f"{2 ** 63} + 1")
            checks.same(row.place, name, ["", ""], [end_of(program, constant(it)) for it in inside])
            checks.same(row.place, name, ends, [end_of(program, constant(it)) for it in outside])
            continue
        limit = next((LIMITS[it] for it in LIMITS if name.startswith(it)), None)
        if limit:
            up_to, past = limit(int(re.sub(r"\D", "", value.rpartition(" to ")[2])))
            checks.same(row.place, f"{name}: {value}", ["", ends[0]], [end_of(program, up_to), end_of(program, past)])
        else:
            checks.holds(row.place, name.startswith(WITHOUT_RUN), f"no test knows the limit '{name}'")


PARTS = (check_codes, check_forms, check_claims, check_limits)
