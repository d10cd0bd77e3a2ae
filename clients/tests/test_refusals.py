"""What is said of each form of a refused source: refused/NAME.go is the source, and refused/NAME.expect what is said of it.

    tests/run.sh clients/tests/test_refusals.py --record      writes the .expect files anew

What to write instead is put in its place, and is then not refused again. test_refusals_of_the_page.py compares with what the page says.
"""
from __future__ import annotations

import re
from pathlib import Path

import pytest

from rewind_client.refusals import Change, Refusal, explain_refusal, table

from checking import SOURCES, checked_all, code_of, source_of
from support.places import TOP

CODES = TOP / "words" / "codes.txt"
PHASES = "SPC"  # the scanner refuses first, then the parser, then the checker


@pytest.fixture(scope="module")
def refusals() -> dict[str, Refusal]:
    sources = [source_of(path) for path in SOURCES]
    found = {}
    for path, source, code in zip(SOURCES, sources, checked_all(sources)):
        assert code, f"{path.name} is not refused"
        found[path.stem] = explain_refusal(source, *code)
    return found


@pytest.mark.parametrize("name", [path.stem for path in SOURCES])
def test_what_is_said(name: str, refusals: dict[str, Refusal], pytestconfig: pytest.Config) -> None:
    said = refusals[name].text(name + ".go") + "\n"
    expected = SOURCES[0].with_name(name + ".expect")
    if pytestconfig.getoption("--record"):
        expected.write_text(said, encoding="utf-8")
    assert said == expected.read_text(encoding="utf-8")


def expected_of(path: Path) -> str:
    """What is said of a source, or nothing where that is not yet written."""
    expected = path.with_suffix(".expect")
    return expected.read_text(encoding="utf-8") if expected.exists() else ""


CHANGED = [path for path in SOURCES if "\nwrite instead: " in expected_of(path)]


@pytest.mark.parametrize("path", CHANGED, ids=lambda path: str(path.stem))
def test_what_is_written_instead_is_not_refused_again(path: Path, refusals: dict[str, Refusal]) -> None:
    """The source with it is accepted, or refused later: by a later phase, or at a later place."""
    source = source_of(path)
    change = refusals[path.stem].change
    assert change is not None
    changed = change.made_in(source)
    before, after = code_of(source), code_of(changed)
    assert before
    if after:
        assert (PHASES.index(after[0][0]), *after[1:]) > (PHASES.index(before[0][0]), *before[1:]), changed
        assert after[0] != "P1" or not is_within(change, changed, *after[1:]), changed


def is_within(change: Change, source: str, line: int, column: int) -> bool:
    """Whether a place lies in the text of a change."""
    start = sum(len(text) + 1 for text in source.split("\n")[: line - 1]) + column - 1
    return change.start <= start < change.start + len(change.text)


def test_code_and_sentences_are_told_apart() -> None:
    """What is written instead has nothing left out, and a hint has no statement in it."""
    for code, entry in table().items():
        for form in entry["forms"]:
            assert not re.search(r"\.\.|\bor\b", form.get("instead", "")), (code, form)
            assert not re.search(r"\.\.|\{ [^a-z]|[{;]$|^(?:if|for|go|func|var|case) \S+$", form.get("hint", "")), (code, form)


@pytest.mark.parametrize(
    "statement, meant",
    [("println(worker1 * 2)", "worked"), ("println(workr * 2)", ""), ("doen <- worked", "done"), ("workr()", "worker"), ("close(worked1)", "")],
)
def test_a_name_is_offered_where_it_fits(statement: str, meant: str) -> None:
    """A function is offered for a call alone, and a variable of the type that is wanted for a value."""
    beginning = ["package main", "func worker() {", "}", "func main() {", "worked, done, dine := 1, make(chan int, 1), 2"]
    source = "\n".join([*beginning, statement, "println(dine)", "}"])
    code = code_of(source)
    assert code
    assert (explain_refusal(source, *code).instead or "") == meant


def test_a_refusal_is_told_in_one_line() -> None:
    source = "package main\n\nfunc main() {\n\tvar mu sync.Mutex\n}\n"
    told = explain_refusal(source, "P2", 4, 13).brief()
    sentence = "packages are not supported: a channel of size 1 stands for sync.Mutex"
    hint = "a send takes the lock, and a receive gives it back"
    assert told == f"line 4: {sentence}. Write instead: mu := make(chan struct{{}}, 1) Hint: {hint}."
    assert explain_refusal("", "S7").brief() == "the source is longer than 1,048,576 bytes."


def test_each_source_has_a_form(refusals: dict[str, Refusal]) -> None:
    assert [name for name, refusal in refusals.items() if not refusal.form] == []


def test_each_form_has_a_source(refusals: dict[str, Refusal]) -> None:
    met = {(refusal.code, refusal.form) for refusal in refusals.values()}
    without_place = {"S7", "S8", "P4", "C11"}
    forms = {(code, form["form"]) for code, entry in table().items() if code not in without_place for form in entry["forms"]}
    assert sorted(forms - met) == []


def test_words_stand_at_their_places(refusals: dict[str, Refusal]) -> None:
    for name, refusal in refusals.items():
        line = refusal.line_text.encode("utf-8", "surrogateescape")
        word = refusal.word.encode("utf-8", "surrogateescape")
        assert line[refusal.column - 1 :].startswith(word), name


def test_meanings_are_those_of_the_documents() -> None:
    meanings: dict[str, str] = {}
    code = ""
    for line in CODES.read_text(encoding="utf-8").splitlines():
        if line and line[0] not in " #=":
            code = line
        elif line.startswith("    means: "):
            meanings.setdefault(code, line[len("    means: ") :].replace("`", ""))
    assert {code: entry["meaning"] for code, entry in table().items()} == {code: meanings[code] for code in table()}
    assert set(table()) == {code for code in meanings if re.fullmatch(r"[SPC]\d+", code)}


def test_patterns_are_read_by_javascript_too() -> None:
    """No group, escape or flag that only Python knows."""
    for entry in table().values():
        for form in entry["forms"]:
            for key in ("at", "before"):
                assert not re.search(r"\(\?(?:P|[aiLmsux]+[):])|\\[AZz]", form.get(key, "")), form


def test_names_of_forms_are_unique() -> None:
    for code, entry in table().items():
        names = [form["form"] for form in entry["forms"]]
        assert len(names) == len(set(names)), code


@pytest.mark.parametrize("code", ["S7", "S8", "P4", "C11"])
def test_a_code_without_a_place_has_one_form(code: str) -> None:
    refusal = explain_refusal("package main\n", code)
    assert refusal.form and refusal.text("x.go") == f"x.go: {refusal.sentence}"


def test_a_form_that_is_not_known_has_the_meaning_of_its_code() -> None:
    refusal = explain_refusal("package main\n\nfunc main() {\n\tprintln(1)\n}\n", "C3", 4, 2)
    assert refusal.form == ""
    assert refusal.text("x.go").startswith("x.go:4:2: a value of the wrong type")


def test_an_unknown_code_is_told() -> None:
    assert explain_refusal("", "Z9", 1, 1).sentence == "the source is refused with code Z9"


@pytest.mark.parametrize("code", ["S1", "S6", "P1", "P2", "C1", "C3", "C4", "C7", "C10"])
def test_any_place_of_any_source_is_told(code: str) -> None:
    """A place that the program would not tell gives a sentence and no error."""
    source = source_of(SOURCES[0].with_name("select_send_on_receive_only.go"))
    for end in range(0, len(source), 7):
        lines = source[:end].split("\n")
        for line, column in ((1, 1), (len(lines), len(lines[-1]) + 1), (99, 99)):
            assert explain_refusal(source[:end], code, line, column).text("x.go")


def test_a_long_line_is_told_soon() -> None:
    source = "package main\n\nfunc main() {\n\tprintln(" + "1 + " * 100_000 + "true)\n}\n"
    refusal = explain_refusal(source, "P3", 4, 1000)
    assert len(refusal.text("x.go")) < 500


def test_a_long_string_is_told_soon() -> None:
    """Looking for its end takes no time for each pair of its letters."""
    source = 'package main\n\nfunc main() {\n\tprintln("' + ")" * 100_000 + "x\n}\n"
    assert explain_refusal(source, "S4", 4, 10).form == "not_closed"
