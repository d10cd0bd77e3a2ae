"""The edits that the prover must refuse, without trying any.

An edit is a file with a line `file: PATH` and pairs of lines `old: TEXT` and `new: TEXT`. Checked is of the edits in
crates/NAME/must-fail and crates/NAME/edits:

- Each applies to its files, no two of a crate have one name or make one change;
- each changes code and not only what is said of it, but for those of definitions in crates/NAME/edits: of a crate whose
  functions do nothing, or of a module that laws alone name;
- must-fail has at most 50, docs/EDITS.md has one row for each of these, and its functions and clauses are there;
- the numbers of the others in docs/EDITS.md are right.
"""
from __future__ import annotations

import re
from collections import Counter
from collections.abc import Iterator
from typing import NamedTuple

import pytest

from support.places import TOP

TABLE = "docs/EDITS.md"
MOST = 50
GATE, OTHERS = "must-fail", "edits"
# The crates whose functions do nothing: their contracts are examples and laws.
WITHOUT_CODE = {"gr_bounds", "gr_code", "gr_late", "gr_laws", "gr_may", "gr_rules", "gr_schedules", "litmus"}
# The modules of other crates that laws alone name.
OF_LAWS = {"gr_search": {"specs/Late.antt", "specs/Meetings.antt"}, "gr_session": {"specs/Claim.antt", "specs/Moves.antt"}}
NUMBERS = re.compile(r"`crates/NAME/edits` has (\d+) edits.*?(\d+) change code.*?(\d+) change a definition", re.S)
ROW = re.compile(r"\| (.+) \| `([\w:]+)`(?:, `(\w+)`)? \| `(\w+)` \| `([\w.-]+\.edit)` \|")

# Of each file that an edit changes its text before and after.
Files = dict[str, tuple[str, str]]


class Row(NamedTuple):
    """A row of the table."""

    mistake: str
    function: str
    clause: str
    crate: str
    name: str

    @property
    def path(self) -> str:
        return f"crates/{self.crate}/{GATE}/{self.name}"


def paths_of(folder: str) -> list[str]:
    return sorted(str(path.relative_to(TOP)) for path in TOP.glob(f"crates/*/{folder}/*"))


IN_GATE, BESIDE = paths_of(GATE), paths_of(OTHERS)


def read(path: str) -> str:
    return (TOP / path).read_text(encoding="utf-8")


def pairs(text: str) -> Iterator[tuple[str, str, str]]:
    """The changes of an edit, each as its path, the old text and the new one."""
    path, old = "", ""
    for line in text.splitlines():
        word, _, rest = line.partition(":")
        rest = rest[1:] if rest.startswith(" ") else rest
        if word == "file" and not old:
            path = rest
        elif word == "old" and not old and path and rest:
            old = rest
        elif word == "new" and old:
            yield path, old, rest
            old = ""
        else:
            pytest.fail(f"the line '{line}' is out of place")
    assert not old, "its last old: has no new:"


def edited(path: str) -> Files:
    """The files that an edit changes, each with its text before and after."""
    crate = path.split("/")[1]
    before: dict[str, str] = {}
    after: dict[str, str] = {}
    for name, old, new in pairs(read(path)):
        if name not in before:
            is_there = re.match(r"(src|specs|proofs)/", name) and (TOP / "crates" / crate / name).is_file()
            assert is_there, f"there is no file {name}"
            before[name] = after[name] = read(f"crates/{crate}/{name}")
        count = after[name].count(old)
        assert count == 1, f"its text stands {count} times in {name}: {old.strip()}"
        after[name] = after[name].replace(old, new)
    assert before != after, "it changes nothing"
    return {name: (before[name], after[name]) for name in before}


def end_of_clause(text: str, start: int) -> int:
    """Where a clause or a ghost item ends that begins at the place."""
    is_ghost = text.startswith("ghost", start)
    depth = 0
    for piece in re.finditer(r'"(?:\\.|[^"\\])*"|[{};]', text[start:]):
        if piece[0] == "{":
            depth += 1
        elif piece[0] == "}":
            depth -= 1
        if depth == 0 and piece[0] == (";" if is_ghost else "}"):
            return start + piece.end()
    return len(text)


def code_of(text: str) -> list[str]:
    """What a file says to the compiler: no comments, attributes, clauses or ghost items."""
    text = re.sub(r"^ *(//|#!?\[).*\n", "", text, flags=re.M)
    code: list[str] = []
    place = 0
    for clause in re.finditer(r"^ *(ensures|requires|ghost)\b", text, re.M):
        if clause.start() >= place:
            code.append(text[place : clause.start()])
            place = end_of_clause(text, clause.start(1))
    return "".join(code + [text[place:]]).split()


def changes_code(files: Files) -> bool:
    sources = [texts for name, texts in files.items() if name.startswith("src/")]
    return any(code_of(before) != code_of(after) for before, after in sources)


@pytest.mark.parametrize("path", IN_GATE + BESIDE, ids=lambda path: str(path)[len("crates/") :])
def test_an_edit(path: str) -> None:
    files = edited(path)
    _, crate, folder, _ = path.split("/")
    of_laws = OF_LAWS.get(crate, set())
    may_define = folder == OTHERS and all(crate in WITHOUT_CODE and name.startswith("specs/") or name in of_laws for name in files)
    assert may_define or changes_code(files), "it changes no code: only a definition, a proof, or what is said of the code"


def test_edits_are_apart() -> None:
    """No two edits of a crate have one name or make one change."""
    seen: dict[object, str] = {}
    for path in IN_GATE + BESIDE:
        _, crate, _, name = path.split("/")
        for key in ((crate, name), (crate, tuple(pairs(read(path))))):
            assert key not in seen, f"{path} has the name of {seen[key]}, or makes its change"
            seen[key] = path


def test_the_numbers_of_other_edits() -> None:
    """The document tells how many edits stand outside the gate, and of what kind."""
    found = NUMBERS.search(read(TABLE))
    of_code = [changes_code(edited(path)) for path in BESIDE].count(True)
    assert found and [int(number) for number in found.groups()] == [len(BESIDE), of_code, len(BESIDE) - of_code]


def headers(crate: str, function: str) -> Iterator[str]:
    """The lines from the name of a function to its body, for each function of the crate with this name."""
    for path in sorted((TOP / "crates" / crate / "src").rglob("*.rt")):
        for found in re.finditer(rf"\bfn {function}\b(?:[^\n]*\{{$|.*?^ *\{{)", path.read_text(encoding="utf-8"), re.M | re.S):
            yield found[0]


def rows_of_table() -> Iterator[Row]:
    """The rows of the table, without its two heads."""
    for line in [line for line in read(TABLE).splitlines() if line.startswith("|")][2:]:
        row = ROW.fullmatch(line)
        assert row, f"this row cannot be read: {line}"
        yield Row(*(cell or "" for cell in row.groups()))


@pytest.mark.parametrize("row", rows_of_table(), ids=lambda row: str(row.path))
def test_a_row(row: Row) -> None:
    assert row.path in IN_GATE
    found = list(headers(row.crate, row.function.split(":")[-1]))
    assert found, f"{row.crate} has no function {row.function}"
    if row.clause:
        assert any(re.search(rf"\bensures\*? {row.clause} ", header) for header in found), f"{row.function} has no clause {row.clause}"


def test_the_table() -> None:
    """Each edit of the gate has one row, and they are not too many."""
    counts = Counter(row.path for row in rows_of_table())
    assert {path: counts[path] for path in IN_GATE if counts[path] != 1} == {}
    assert len(IN_GATE) <= MOST
