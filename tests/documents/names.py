"""Functions and crates that documents name in code font: they are there, and what is promised of a crate is public."""
from __future__ import annotations

import functools
import re

from . import repository, sources
from .checks import Checks
from .markdown import SPAN, Page, Row, page, spans
from .sources import Crate, Function

# Documents that tell what a crate promises: what they name beside it can be called from other crates.
PROMISING = ("README.md", "docs/THEOREMS.md")
MAP = "docs/ARCHITECTURE.md"
JOINT = re.compile(r"( \(\*laws?\*\))?([,;]? (and |or |to )?|,|;)$")
# Types of the standard library.
STANDARD = {"Arc", "BTreeMap", "Box", "Cell", "Mutex", "Option", "Result", "String", "Vec"}
COUNTS = "zero one two three four five six seven eight nine ten eleven twelve".split()
GO_WORDS = {"int", "bool", "println"}

# A part of a line in code font, with where it begins and ends.
Part = tuple[str, int, int]


def is_crate(text: str) -> bool:
    return text in repository.crates()


def is_name(text: str) -> bool:
    """Whether a text may be the name of a function, a type or a module."""
    return bool(re.fullmatch(r"(?!gr_)[A-Za-z_]\w*(::\w+)?", text)) and not is_crate(text)


def lists_of(line: str) -> list[list[Part]]:
    """The lists of parts in code font: (text, start, end) of each, joined by commas and the like alone."""
    found: list[list[Part]] = []
    for part in SPAN.finditer(line):
        if found and JOINT.fullmatch(line[found[-1][-1][2]:part.start()]):
            found[-1].append((part[2], part.start(), part.end()))
        else:
            found.append([(part[2], part.start(), part.end())])
    return found


def beside_crates(line: str, crate: str = "") -> list[tuple[str, list[str]]]:
    """(crate, names) of each list of names that stands directly behind a crate's name, or before it: `a`, `b` in `gr_x`."""
    found: list[tuple[str, list[str]]] = []
    lists = lists_of(line)
    for here, parts in enumerate(lists):
        current = crate
        names: dict[str, list[str]] = {}
        for at, (text, _, end) in enumerate(parts):
            follows = at + 1 < len(parts) and line[end:parts[at + 1][1]] == " "
            if is_crate(text):
                current = text if follows else crate
            elif text.startswith("gr_"):
                current = ""
            elif is_name(text):
                names.setdefault(current, []).append(text)
        follower = lists[here + 1][0] if here + 1 < len(lists) else None
        if "" in names and follower and is_crate(follower[0]):
            if re.fullmatch(r" (in |of |\()(the crate )?", line[parts[-1][2]:follower[1]]):
                names.setdefault(follower[0], []).extend(names[""])
        found += [(it, names[it]) for it in names if it]
    return found


def fault_of_function(crate: Crate, functions: list[Function], text: str) -> str:
    """What is wrong with a function that a document promises."""
    if not functions:
        return f"{crate.name} has no {text}"
    if not any(crate.is_public(it) for it in functions):
        return f"{text} of {crate.name} is not public"
    return ""


def fault_of_promise(crate: Crate, text: str) -> str:
    """What is wrong with a name that a document promises of a crate: a function, or else a public type or module."""
    owner, _, name = text.rpartition("::")
    if owner:
        return fault_of_function(crate, crate.functions_of(name, owner), text)
    if crate.types.get(text) == "pub" or crate.modules.get(text):
        return ""
    return fault_of_function(crate, crate.functions_of(text), text)


def check_list(checks: Checks, place: str, crate: Crate, names: list[str]) -> None:
    """Names beside a crate. A method without its type is of a type that is named before it in the list, if one is."""
    owners = {it.rpartition("::")[0] for it in names} - {""}
    for text in names:
        fault = fault_of_promise(crate, text)
        functions = crate.functions_of(text)
        if not fault and owners and functions and all(it.owner and it.owner not in owners for it in functions):
            fault = f"{text} of {crate.name} is no function of {' or '.join(sorted(owners))}"
        checks.holds(place, not fault, fault)


def check_count(checks: Checks, place: str, crate: Crate, cell: str) -> None:
    """The number of laws that a cell tells: `nine laws`, `five laws in` a module."""
    told = re.search(r"\b(\w+) laws\b(?: in `(\w+)`)?", cell)
    if not told or told[1] not in COUNTS:
        return
    inside = f"/src/{told[2]}.rt" if told[2] else "/src/"
    laws = [it for it in crate.functions if inside in it.path and crate.is_public(it) and not it.owner]
    checks.same(place, f"laws of {crate.name}", COUNTS.index(told[1]), len(laws))


def check_row(checks: Checks, row: Row, crate: str) -> str:
    """The names in the column `Function` of a row. Gives the last crate that the row names, or the one before."""
    cell = row.cells[row.heads.index("Function")]
    if "Crate" in row.heads:
        crate = row.cells[row.heads.index("Crate")].strip("`")
        checks.holds(row.place, is_crate(crate), f"there is no crate {crate}")
    named: list[str] = [it for it in re.findall(r"`(\w+)`", cell) if is_crate(it)]
    crate = named[0] if named else crate
    if crate and is_crate(crate):
        for name, names in beside_crates(cell, crate):
            check_list(checks, row.place, sources.crate(name), names)
        check_count(checks, row.place, sources.crate(named[-1] if named else crate), cell)
    return named[-1] if named else crate


def check_tables(checks: Checks, document: Page) -> None:
    """The tables with a column `Function`. A row that names no crate is of the crate that is named last in its section."""
    crates: dict[str, str] = {}
    for row in document.rows:
        if "Function" not in row.heads:
            continue
        if row.section not in crates:
            words = "\n".join(document.words_before(row.line))
            named = [it for it in re.findall(r"`(\w+)`", words) if is_crate(it)]
            crates[row.section] = named[0] if named else ""
        crates[row.section] = check_row(checks, row, crates[row.section])


def check_prose(checks: Checks, document: Page) -> None:
    """Names beside a crate outside those tables. In a document that promises nothing they only have to be there."""
    tables = {row.line for row in document.rows if "Function" in row.heads}
    for number, line in enumerate(document.prose):
        place = f"{document.name}:{number + 1}"
        for name, names in beside_crates(line) if number + 1 not in tables else ():
            if document.name in PROMISING:
                check_list(checks, place, sources.crate(name), names)
            for text in names if document.name not in PROMISING else ():
                checks.holds(place, sources.crate(name).has(text.rpartition("::")[2]), f"{name} has no {text}")


def is_part(text: str) -> bool:
    """Whether some crate has a law of this name, or a type with a part or method of this name."""
    owner, _, name = text.rpartition("::")
    for crate in map(sources.crate, repository.crates()):
        if crate.functions_of(name, owner or None) or (owner in crate.types and name in crate.parts):
            return True
    return owner in STANDARD


def check_everywhere(checks: Checks, document: Page) -> None:
    """In every document: a crate, a law or a method that is named in code font is there."""
    known = set(repository.crates()) | set(kit_crates())
    for number, line in enumerate(document.prose):
        place = f"{document.name}:{number + 1}"
        for text in spans(line):
            if re.fullmatch(r"gr_\w+", text):
                checks.holds(place, text in known, f"there is no crate {text}")
            elif re.fullmatch(r"[A-Z]\w+::\w+|law_of_\w+", text):
                checks.holds(place, is_part(text), f"no crate has {text}")


@functools.lru_cache(maxsize=None)
def kit_crates() -> list[str]:
    """The crates of the kit that crates.txt names."""
    words = re.findall(r"\w+", re.sub(r"#.*", "", repository.read("crates.txt")))
    return sorted(set(words) - set(repository.crates()))


def below(crate: str) -> list[str]:
    """The crates on which a crate stands, and itself."""
    line = next((it for it in repository.read("crates.txt").splitlines() if re.match(rf"{crate}\b", it)), "")
    return [crate] + [it for it in re.findall(r"\w+", line.partition(":")[2]) if is_crate(it)]


def check_paragraph(checks: Checks, place: str, own: list[str], line: str) -> None:
    """The paragraph of crates on the map: each name in code font is a part of them, or of a crate below them."""
    for name in own:
        checks.holds(place, is_crate(name), f"there is no crate {name}")
    near = [sources.crate(it) for name in own for it in below(name) if is_crate(it)]
    for text in spans(line):
        if is_name(text) and "::" not in text and text not in GO_WORDS and text not in kit_crates():
            known = any(it.has(text) or text in it.imported for it in near)
            checks.holds(place, known, f"{' and '.join(own)}: no part is named {text}")


def check_map(checks: Checks) -> None:
    document = page(MAP)
    for number, line in enumerate(document.prose):
        head = re.match(r"\*\*([\w, ]+)\.\*\*", line)
        own = [it.strip() for it in head[1].split(",")] if head else []
        if any(is_crate(it) or it.startswith("gr_") for it in own):
            check_paragraph(checks, f"{MAP}:{number + 1}", own, line)
    missing = [it for it in repository.crates() if not re.search(rf"\b{it}\b", repository.read(MAP))]
    checks.same(f"{MAP}:1", "crates that are not on the map", [], missing)


def check(checks: Checks, document: Page) -> None:
    if document.name in PROMISING:
        check_tables(checks, document)
    check_prose(checks, document)
    check_everywhere(checks, document)
