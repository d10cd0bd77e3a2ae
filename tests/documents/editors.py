"""Configuration of editors: it can be read, the files that it names are there, and so are the members and requests
of the adapter."""
from __future__ import annotations

import json
import os
import re
import sys
from collections.abc import Callable
from typing import Any

from . import repository
from .checks import Checks
from .markdown import Block, page, spans
from .program import Scratch

PAIRS = {")": "(", "]": "[", "}": "{"}
PAGE, STORY = "docs/EDITORS.md", "clients/tests/dap/story.txt"


def kind_of(block: Block) -> str:
    """The language of a block of configuration, if it is one."""
    first = next((line for line in block.lines if line.strip()), "")
    if re.match(r"\s*\{", first) or re.match(r'\s*\[\s*("|\{|$)', first):
        return "JSON"
    if re.match(r"\s*(local \w+ = |require\()", first):
        return "Lua"
    if re.match(r"\[\[?[\w.-]+\]\]?$", first):
        return "TOML"
    return "Lisp" if re.match(r"\((?!rewind\) )[\w-]+", first) else ""


def without_strings(text: str) -> str:
    return re.sub(r"\"(\\.|[^\"\\])*\"|'[^'\n(]*'", "", text)


def unbalanced(text: str) -> str:
    """The bracket of a text that has no partner, if there is one."""
    open_so_far: list[str] = []
    mark: str
    for mark in re.findall(r"[()\[\]{}]", without_strings(text)):
        if mark not in PAIRS:
            open_so_far.append(mark)
        elif not open_so_far or open_so_far.pop() != PAIRS[mark]:
            return mark
    return open_so_far[-1] if open_so_far else ""


if sys.version_info >= (3, 11):
    import tomllib

    check_toml: Callable[[str], object] = tomllib.loads
else:  # Python before 3.11 has no reader.

    def check_toml(text: str) -> object:
        return text


def fault_of(kind: str, text: str) -> str:
    """Why a text is no text of its language, if it is none."""
    try:
        if kind == "JSON":
            json.loads(text)
        elif kind == "TOML":
            check_toml(text)
    except ValueError as error:
        return str(error)
    mark = unbalanced(text)
    return f"'{mark}' without its partner" if mark else ""


def launches(value: Any) -> list[dict[str, Any]]:
    """The launch configurations of Rewind in a value of JSON."""
    if isinstance(value, list):
        return [it for part in value for it in launches(part)]
    if not isinstance(value, dict):
        return []
    own = [value] if value.get("type") == "rewind" else []
    return own + [it for part in value.values() for it in launches(part)]


def described() -> dict[str, Any]:
    """What the extension for VS Code says of a launch configuration."""
    package = json.loads(repository.read("editors/vscode/package.json"))
    debuggers = package["contributes"]["debuggers"]
    found: dict[str, Any] = next(it for it in debuggers if it["type"] == "rewind")["configurationAttributes"]["launch"]
    return found


def check_settings(checks: Checks, program: Scratch, block: Block) -> None:
    kind = kind_of(block)
    fault = fault_of(kind, block.text)
    if not checks.holds(block.place(), not fault, f"no {kind}: {fault}"):
        return
    for number, line in enumerate(block.lines):
        for name in re.findall(r"REPOSITORY/([\w./-]+)", line):
            checks.holds(block.place(number), repository.exists(name), f"there is no {name}")
    for launch in launches(json.loads(block.text)) if kind == "JSON" else []:
        known = set(described()["properties"]) | {"type", "request", "name"}
        for member in launch:
            checks.holds(block.place(), member in known, f"a launch configuration has no member {member}")


def adapter() -> str:
    """The text of the adapter."""
    folder = "clients/rewind_dap/"
    return "\n".join(repository.read(it) for it in repository.files() if it.startswith(folder) and it.endswith(".py"))


def check_tables(checks: Checks) -> None:
    document = page(PAGE)
    rows = document.rows_of("Member")
    place = rows[0].place if rows else document.name
    told = [spans(it.cells[0])[0] for it in rows]
    checks.same_sets(place, "members of a launch configuration", described()["properties"], told)
    text = adapter()
    for row in document.rows_of("Request"):
        for name in spans(row.cells[0]):
            checks.holds(row.place, f'"{name}"' in text, f"the adapter knows no request {name}")


def is_told(words: str, told: str) -> bool:
    """Whether a recorded story has a command, typed into the console or asked by a request, or has printed these words."""
    name, _, step = words.partition(" ")
    request = f'"command":"rewind/{name}"' + (f',"arguments":{{"step":"{step}"}}' if step else "")
    return f'"expression":"{words}"' in told or request in told or f'"output":"{words}\\n"' in told


def check_story(checks: Checks) -> None:
    """Whether the commands and the printed lines of the story are in the recorded one."""
    document = page(PAGE)
    told = repository.read(STORY)
    found = [it for it in document.sections if document.headings.get(it) == "A story"]
    checks.holds(document.name, found, "no section 'A story'")
    for number, line in [it for section in found for it in document.words_of(section)]:
        for words in spans(line):
            if " " in words or words in ("redo", "undo"):
                checks.holds(f"{document.name}:{number}", is_told(words, told), f"{STORY} has no {words!r}")


def check_launchers(checks: Checks) -> None:
    for name in ("clients/rewind-dap", "editors/vscode/rewind-dap"):
        runs = os.access(repository.path_of(name), os.X_OK)
        checks.holds(name, runs, "an editor cannot run it")


PARTS = (check_tables, check_story, check_launchers)
