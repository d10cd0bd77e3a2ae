"""Recipes of the map: each names every file at which a sample of what it adds stands, and no other file.

A recipe has a table of places. Its first column is a folder, and its second has the files in it, with `*` for any part of
a path. A file of a crate's `src` or `specs` stands there without its ending. A sample is something that was added once:
the command `text`, the loop `range`, the operation `cap`, the kind of step `length` and the shell's word `direct`.
"""
from __future__ import annotations

import dataclasses
import fnmatch
import re

from . import repository
from .checks import Checks
from .markdown import page, spans

MAP = "docs/ARCHITECTURE.md"
ENDINGS = {"src": ".rt", "specs": ".antt"}
CRATES = r"crates/(?!sessions/).*\.(rt|antt)"
TEXTS = r".*\.(py|js|mjs|json|txt|script|go)"
AROUND = r"(words|tests(?!/documents/recipes)|clients(?!/tests/refused)|page/src|page/test|editors)/" + TEXTS
DOCUMENTS = r"docs/(COMMANDS|LANGUAGE|STEPS)\.md"


@dataclasses.dataclass(frozen=True)
class Sample:
    """What was added by a recipe, and how it looks: a pattern of text in the files of each area."""

    recipe: str
    looks: tuple[tuple[str, str], ...]


SAMPLES = (
    Sample("A command or a query", (
        (CRATES, r"Command::Text\b|commands\.Text\b|\"text\"|\(Text [(g]|\bText, Console\b|text_said|\btext\(alloc|showing\.text\b|\bshow, text\}"),
        (AROUND, r"\btext G\b|[\"'`]text (?:\$\{|\")|\b(?:show|chan)\", ?\"text\"|\bchan text\b|rf\"text |^text g0"),
        (AROUND, r"\"text\"[:,] \"(?:no Q2|bt|g0)\""),
        (r"crates/sessions/data/.*\.script", r"^text g0"),
        (r"docs/(COMMANDS|THEOREMS)\.md", r"`text G`|`text`"),
    )),
    Sample("A statement", (
        (r"(?!crates/(gr_const|gr_exprs)/)" + CRATES, r"\bRange(?:s|[A-Z]\w*)?\b|\branged\b|\"range\""),
        (r"(?!crates/(gr_const|gr_exprs)/)" + CRATES, r"(?<!of)_range\b|\brange_(?!with)\w+"),
        (AROUND, r"[\"'`]range[\"'`]|\brange_ahead\b"),
        (r"tests/(documents|hostile)/(language|sources)\..*|clients/rewind_client/refusals\.json", r"= range "),
        (DOCUMENTS, r"\bfor v := range\b"),
    )),
    Sample("An operation on channels", (
        (CRATES, r"\bCap\b|\bcap\b|_cap\b|\bcap_\w+|[a-z]Cap\b"),
        (AROUND, r"[\"'`]cap[\"'`]"),
        (r"tests/(documents|hostile)/(language|kinds)\..*", r"\bcap\("),
        (DOCUMENTS, r"`cap\b"),
    )),
    Sample("A kind of step", (
        (r"(?!crates/(gr_exprs|gr_typing)/)" + CRATES, r"\bLength\b|\"length\""),
        (r"(words|tests|clients/rewind_client|page/src)/" + TEXTS, r"\"length\"(?!\])|^length$"),
        (DOCUMENTS, r"^\| `length`"),
    )),
    Sample("A word of the shell", (
        (r"clients/README\.md|(clients(?!/tests/refused)|editors)/" + TEXTS, r"[\"']direct[\"']|`direct "),
    )),
)


def found(sample: Sample) -> list[str]:
    """The files in which a sample stands."""
    def stands_in(name: str) -> bool:
        return any(re.fullmatch(area, name) and re.search(look, repository.read(name), re.M) for area, look in sample.looks)

    return [name for name in repository.files() if stands_in(name)]


def place_of(folder: str, name: str) -> str:
    """The path that a cell of the table means."""
    whole = f"crates/{folder}" if folder.split("/")[0] in repository.crates() else folder
    ending = "" if "." in name or "*" in name else ENDINGS.get(folder.rpartition("/")[2], "")
    return f"{whole}/{name}{ending}"


def check_recipe(checks: Checks, sample: Sample) -> None:
    rows = [row for row in page(MAP).rows_of("In", "Files") if row.section == sample.recipe]
    named = {place_of(spans(row.cells[0])[0], name): row.place for row in rows for name in spans(row.cells[1])}
    files = found(sample)
    for name in files:
        known = any(fnmatch.fnmatchcase(name, it) for it in named)
        checks.holds(f"{MAP}:1", known, f"{sample.recipe}: the sample stands in {name}, which the recipe does not name")
    for pattern, place in named.items():
        checks.holds(place, fnmatch.filter(files, pattern), f"{sample.recipe}: the sample does not stand in {pattern}")
