"""Which modules of definitions stand behind what docs/THEOREMS.md promises.

A definition in `crates/NAME/specs` is needed where one of these names it:

- a clause of a function in the column 'Function' of THEOREMS. A type there stands for its public functions, its facts
  and its invariant. A row without a function stands for all public functions of its crate.
- the view of a type of the code, where such a function or a needed definition speaks of the type;
- a needed definition.

So what serves proofs, private functions or functions that THEOREMS does not name is left out. The files are read as
text: a word of a clause or of a definition means what the lines with `use` in its file say.
"""
from __future__ import annotations

import functools
import glob
import os
import re
from collections.abc import Callable, Iterable, Iterator

CRATES = os.path.join(os.path.dirname(os.path.dirname(os.path.dirname(os.path.realpath(__file__)))), "crates")
WORD = re.compile(r"[^\s(){}\[\],;.]+(?:\.[^\s(){}\[\],;.]+)*")
USE = re.compile(r"^ *(?:pub |ghost )*use Rattle\.(\w+)\.specs\.([\w.]+?)(?:\.\{([^}]*)\})?(?: as (\w+))?;? *$", re.M)
# The first line of a definition, and a line that declares names.
BEGINS = re.compile(r"(?:unfoldable |abbrev |pub |record |data |module\b|mutual\b|infix)")
DECLARES = re.compile(r" {0,6}(?:(?:unfoldable|abbrev|pub|record|data) )*([^\s(){}]+(?: [^\s(){}=]+)*?)(?: [({].*)? :(?= |$)")
RECORD = re.compile(r" {0,2}(?:pub )?record [^\s({]")
NO_NAMES = {"module", "_", "→", "×"}
ITEM = r"^(?:pub(?:\(\w+\))? )?(?:unsafe |const )*(fn|struct|enum|trait|impl)\b(?:[^\n]*(?:;|\{\})$|.*?^\{?\})"
FUNCTION = re.compile(r"( {4})?(pub(?:\(\w+\))? )?(?:const |unsafe )*fn (\w+)")
CLAUSES = re.compile(r"\b(?:requires|ensures) (?:\w+ )?\{")
GHOST = re.compile(r"^    ghost (\w+)(?: =|:)(.*?)(?=^\}|^$|^    (?:ghost|pub|fn|//|#)|^    \w+:)", re.M | re.S)
# Ghost items that show what other items of a type say.
PROOFS = {"coded", "laws", "inverse_ok", "respects_eq", "respects_hash", "matches_eq", "matches_partial_cmp"}
OPERATORS = {"==": "eq"}


# For each word the (crate, path, name) that it may mean. The name of a module is None.
Imports = dict[str, set[tuple[str, str, "str | None"]]]
# (crate, owner, name) of what the column 'Function' names.
Promise = tuple[str, "str | None", "str | None"]


def read(path: str) -> str:
    with open(path, encoding="utf-8") as file:
        return file.read()


def path_of(crate: str, module: str) -> str:
    return os.path.join(CRATES, crate, "specs", module + ".antt")


@functools.lru_cache(maxsize=None)
def is_crate(name: str) -> bool:
    return os.path.exists(path_of(name, "Lib"))


@functools.lru_cache(maxsize=None)
def passed_on(crate: str) -> dict[str, tuple[str, str]]:
    """What the definitions of a crate pass on of crates below it: the name there, and where it comes from."""
    uses = USE.findall(read(path_of(crate, "Lib")))
    return {alias or path.rpartition(".")[2]: (below, path) for below, path, _, alias in uses}


@functools.lru_cache(maxsize=None)
def home_of(crate: str, path: str) -> tuple[str, str] | None:
    """The crate and the path in it of a module, or of what the code declares. None is of the toolchain."""
    head, _, rest = path.partition(".")
    if not is_crate(crate) or head in ("declared", "contracts") or os.path.exists(path_of(crate, head)):
        return (crate, path) if is_crate(crate) else None
    below, first = passed_on(crate)[head]
    return home_of(below, first + ("." + rest if rest else ""))


def imports(text: str) -> Imports:
    """What the lines with `use` bring in: for each word the (crate, path, name) that it means. The name of a module is None."""
    found: Imports = {}
    for crate, path, names, alias in USE.findall(text):
        home = home_of(crate, path)
        if not home:
            continue
        for name, _, other in [it.strip().partition(" as ") for it in names.split(",")] if names else ():
            found.setdefault(other or name, set()).add((*home, name))
        if not names:
            found.setdefault(alias or path.rpartition(".")[2], set()).add((*home, None))
    return found


def words_of(text: str) -> tuple[set[str], set[tuple[str, str]]]:
    """The words of a text, and its pairs of a module and a member."""
    dotted = [word.split(".") for word in WORD.findall(text)]
    return {it[0] for it in dotted}, {(it[0], it[1]) for it in dotted if len(it) > 1}


def is_among(name: str, words: set[str]) -> bool:
    """Whether words have a name; one with holes is there where all its parts are."""
    return all(it in words for it in name.split("◌") if it)


def named(text: str, brought: Imports) -> list[tuple[str, str, str]]:
    """What a text names of what was brought in, in a fixed order."""
    plain, pairs = words_of(text)
    found = {(*it[:2], it[2]) for name in brought for it in brought[name] if it[2] and is_among(name, plain)}
    for module, member in pairs:
        found.update((crate, path, member) for crate, path, name in brought.get(module, ()) if name is None)
    return sorted(found)


def names_declared(line: str) -> list[str]:
    """The names that a line of definitions declares: of a function, a type or constructors. Fields of records are no names."""
    declared = DECLARES.match(line)
    return [it for it in declared[1].split() if it not in NO_NAMES] if declared else []


class Definitions:
    """A module of definitions: its parts, and for each name that it declares the part in which it does."""

    def __init__(self, text: str) -> None:
        text = re.sub(r"^ *--.*\n", "", text, flags=re.M)
        self.imports = imports(text)
        self.parts: list[str] = []
        self.homes: dict[str, int] = {}
        fields: int | None = None
        for line in USE.sub("", text).splitlines():
            indent = len(line) - len(line.lstrip())
            names = names_declared(line) if fields is None or indent <= fields else []
            if BEGINS.match(line) or names and indent == 0 and names[0] not in self.homes:
                self.parts.append("")
            if self.parts:
                self.parts[-1] += line + "\n"
                self.homes.update((it, len(self.parts) - 1) for it in names if it not in self.homes)
            if line and (fields is None or indent <= fields):
                fields = indent if RECORD.match(line) else None


@functools.lru_cache(maxsize=None)
def definitions(crate: str, module: str) -> Definitions:
    return Definitions(read(path_of(crate, module)))


class File:
    """What the words of a file of code mean: in clauses, and as types, of which the crate is known."""

    def __init__(self, crate: str, text: str) -> None:
        self.imports = imports(text)
        self.crates: dict[str, str] = {}
        for below, names in re.findall(r"^(?:pub )?use (\w+)::([^;]*);", text, re.M):
            self.crates.update((it, crate if below == "crate" else below) for it in re.findall(r"\w+", names))


class Function:
    """A function: what is before its first clause, and its clauses."""

    def __init__(self, owner: str, name: str, is_public: bool, head: str, file: File) -> None:
        self.owner, self.name, self.is_public, self.file = owner, name, is_public, file
        head = re.sub(r"^ *//.*\n", "", head, flags=re.M)
        start = CLAUSES.search(head)
        self.signature, self.clauses = (head[: start.start()], head[start.start():]) if start else (head, "")

    def __str__(self) -> str:
        return f"{self.owner}::{self.name}" if self.owner else self.name


def head_of(lines: Iterable[str], indent: str) -> str:
    """What stands of a function before its body. One without clauses has its brace at the end of a line."""
    taken = ""
    for line in lines:
        if line.startswith(indent + "{"):
            break
        taken += line + "\n"
        if line.endswith("};") if CLAUSES.search(taken) else line.endswith(("{", ";")):
            break
    return taken


def functions_in(text: str, owner: str, all_public: bool, file: File) -> Iterator[Function]:
    lines = text.split("\n")
    for number, line in enumerate(lines):
        found = FUNCTION.match(line)
        if found and bool(found[1]) == bool(owner):
            head = head_of(lines[number:], found[1] or "")
            yield Function(owner, found[3], all_public or found[2] == "pub ", head, file)


def type_of(header: str) -> str:
    """The type of an `impl`."""
    text = re.split(r"\bwhere\b", header)[0]
    while re.search(r"<[^<>]*>", text):
        text = re.sub(r"<[^<>]*>", "", text)
    name: str = re.findall(r"\w+", text.split(" for ")[-1])[-1]
    return name


class Code:
    """The code of a crate: its functions, its types with their files, and ghost items by their types."""

    def __init__(self, crate: str) -> None:
        self.functions: list[Function] = []
        self.types: dict[str, tuple[str, File]] = {}
        self.ghosts: dict[str, list[tuple[str, str, File]]] = {}
        self.passed_on: dict[str, str] = {}
        for path in sorted(glob.glob(os.path.join(CRATES, crate, "src", "**", "*.rt"), recursive=True)):
            text = read(path)
            file = File(crate, text)
            for below, names in re.findall(r"^pub use ((?!crate)\w+)::([^;]*);", text, re.M):
                self.passed_on.update((it, below) for it in re.findall(r"\w+", names))
            for item in re.finditer(ITEM, text, re.M | re.S):
                self.add(item[1], item[0], file)

    def add(self, sort: str, text: str, file: File) -> None:
        header = text.partition("{")[0]
        owner = "" if sort == "fn" else type_of(header) if sort == "impl" else re.findall(rf"{sort} (\w+)", text)[0]
        self.functions.extend(functions_in(text, owner, sort == "trait" or " for " in header, file))
        if sort not in ("fn", "impl"):
            self.types[owner] = (GHOST.sub("", text), file)
        for ghost, words in GHOST.findall(text) if owner else ():
            self.ghosts.setdefault(owner, []).append((ghost, words, file))


@functools.lru_cache(maxsize=None)
def code(crate: str) -> Code:
    return Code(crate)


@functools.lru_cache(maxsize=None)
def declares(crate: str, name: str) -> str | None:
    """The crate that declares a type which this one may pass on. None is of the toolchain, or no type."""
    below: str | None = crate
    while below and is_crate(below):
        if name in code(below).types:
            return below
        below = code(below).passed_on.get(name)
    return None


class Reach:
    """What is reached: parts of modules of definitions, each with what names it, and types of the code."""

    def __init__(self) -> None:
        self.why: dict[tuple[str, str, int], str] = {}
        self.types: set[tuple[str, str]] = set()
        self.waiting: list[tuple[str, str, int]] = []

    def name(self, crate: str, path: str, name: str | None, who: str) -> None:
        """A name of a module, which may pass on that of another one."""
        head, *rest = path.split(".")
        if head in ("declared", "contracts"):
            if head == "declared" and len(rest) > 1:
                self.type(crate, rest[1], who)
            return
        module = definitions(crate, head)
        if name in module.homes:
            self.part(crate, head, module.homes[name], f"{name}, named by {who}")
            return
        for below, path_below, name_below in sorted(module.imports.get(name or "", ()), key=str):
            self.name(below, path_below, name_below, who)

    def part(self, crate: str, module: str, part: int, why: str) -> None:
        if (crate, module, part) not in self.why:
            self.why[crate, module, part] = why
            self.waiting.append((crate, module, part))

    def text(self, text: str, brought: Imports, who: str) -> None:
        for crate, path, name in named(text, brought):
            self.name(crate, path, name, who)

    def type(self, crate: str, name: str, who: str) -> None:
        """A type: what its view names, and the types of its fields. Where it has a view, only fields that this shows count."""
        home = declares(crate, name)
        if not home or (home, name) in self.types:
            return
        crate = home
        self.types.add((crate, name))
        views = [it for it in code(crate).ghosts.get(name, ()) if it[0] in ("Value", "view")]
        for _, words, file in views:
            self.text(words, file.imports, f"the view of {crate} {name}")
        text, file = code(crate).types[name]
        shown = " ".join(words for _, words, _ in views)
        for line in text.split("\n")[1:]:
            field = re.match(r" *(?:pub(?:\(\w+\))? )?(\w+): ", line)
            if not views or not field or re.search(rf"\.{field[1]}\b", shown):
                self.types_in(line, crate, file, who)

    def types_in(self, text: str, crate: str, file: File, who: str) -> None:
        for word in sorted(set(re.findall(r"\w+", text))):
            self.type(file.crates.get(word, crate), word, who)

    def function(self, crate: str, function: Function) -> None:
        who = f"{crate} {function}"
        self.text(function.clauses, function.file.imports, who)
        self.types_in(f"{function.signature} {function.owner}", crate, function.file, who)
        self.ghosts(crate, function.owner, who, lambda ghost: ghost == function.name)

    def ghosts(self, crate: str, owner: str, who: str, counts: Callable[[str], bool]) -> None:
        for ghost, words, file in code(crate).ghosts.get(owner, ()):
            if counts(ghost):
                self.text(words, file.imports, who)

    def promise(self, crate: str, owner: str | None, name: str | None) -> None:
        """A function or a type of the column 'Function'. A function need not be of the owner that was named last."""
        functions = [it for it in code(crate).functions if it.is_public]
        found = [it for it in functions if name in (it.name, None)]
        if not found and name in code(crate).types:
            found = [it for it in functions if it.owner == name]
            self.ghosts(crate, name or "", f"{crate} {name}", lambda ghost: ghost not in PROOFS)
        for function in [it for it in found if it.owner == (owner or "")] or found:
            self.function(crate, function)

    def follow(self) -> None:
        """Reaches all that the reached parts name."""
        while self.waiting:
            crate, module, part = self.waiting.pop()
            here, who = definitions(crate, module), f"{crate} {module}"
            self.text(here.parts[part], here.imports, who)
            plain, _ = words_of(here.parts[part])
            for name in [it for it in here.homes if is_among(it, plain)]:
                self.part(crate, module, here.homes[name], f"{name}, named by {who}")


def cells_of(line: str) -> list[str]:
    """The cells of a row of a table; of another line there are none."""
    return [it.strip() for it in line.strip("|").split("|")] if line.startswith("|") else []


def promises(lines: list[str]) -> Iterator[Promise]:
    """(crate, owner, name) of what the column 'Function' names. A row that names no crate is of the one named last above it."""
    crate, column = "", None
    for line in lines:
        cells = cells_of(line)
        if "Function" in cells or not cells:
            column = cells.index("Function") if cells else None
        counts = column is not None and "Function" not in cells and not line.startswith("|-")
        owner: str | None = None
        names: list[Promise] = []
        for span in re.findall(r"`([^`]+)`", cells[column] if column is not None and counts else "" if cells else line):
            if is_crate(span):
                crate, owner = span, None
            elif counts:
                first, _, name = span.rpartition("::")
                owner = first or owner
                names.append((crate, owner, OPERATORS.get(name, name)))
        if counts:
            yield from names or [(crate, None, None)]


def needed(lines: list[str]) -> dict[tuple[str, str], str]:
    """What names it, for each (crate, module) that the promises in the lines of a document need."""
    reach = Reach()
    for crate, owner, name in promises(lines):
        reach.promise(crate, owner, name)
    reach.follow()
    found: dict[tuple[str, str], str] = {}
    for (crate, module, _), why in reach.why.items():
        found.setdefault((crate, module), why)
    return found
