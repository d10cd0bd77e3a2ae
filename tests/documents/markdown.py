"""A Markdown document: its sections, code blocks, tables and links, each with its line, as markdown-it finds them.

Words in code font are looked for in each line of prose by a pattern, since markdown-it does not tell where in a line they stand.
"""
from __future__ import annotations

import functools
import re
from collections.abc import Iterator
from typing import Any, NamedTuple, Optional

from markdown_it import MarkdownIt
from markdown_it.token import Token

from . import repository

NOT_RUN = re.compile(r"<!-- not run: (.+?) -->\s*$")
IN_HTML = re.compile(r'\b(src|href)="([^"]+)"')
SPAN = re.compile(r"(?<!`)(`+)(?!`)(.+?)(?<!`)\1(?!`)")
MARKDOWN = MarkdownIt("commonmark").enable("table")


class Block(NamedTuple):
    """A code block. Its line is that of its first line of code, its section the number of the heading above it.

    `reason` says why the block is not run, where a comment before it does.
    """

    page: str
    line: int
    lines: list[str]
    info: str
    section: int
    reason: str

    def place(self, number: int = 0) -> str:
        """The place of a line of the block, counted from 0."""
        return f"{self.page}:{self.line + min(number, len(self.lines))}"

    @property
    def text(self) -> str:
        return "\n".join(self.lines) + "\n"


class Row(NamedTuple):
    """A row of a table, with the cells of the table's heading and the title of its section."""

    page: str
    line: int
    cells: list[str]
    heads: list[str]
    section: str

    @property
    def place(self) -> str:
        return f"{self.page}:{self.line}"


class Link(NamedTuple):
    """What a link or a picture leads to."""

    line: int
    target: str
    is_picture: bool


def spans(text: str) -> list[str]:
    """The parts of a text that are in code font."""
    return [match[2] for match in SPAN.finditer(text)]


def slug(heading: str) -> str:
    """The anchor of a heading."""
    text = re.sub(r"!?\[([^\]]*)\]\([^)]*\)", r"\1", heading).strip().lower()
    return re.sub(r"[^\w\- ]", "", text).replace(" ", "-")


class Page:
    """A document. `prose` has each line outside code blocks, and '' in place of the others. A section begins at a heading
    of the first or second level, with its number in `sections`; a line is counted from 0."""

    def __init__(self, name: str, text: str) -> None:
        self.name, self.lines = name, text.split("\n")
        self.prose = list(self.lines)
        self.blocks: list[Block] = []
        self.rows: list[Row] = []
        self.headings: dict[int, str] = {}
        self.sections, self.anchors = [0], set[str]()
        self.defined: dict[str, Any] = {}
        self.tokens = MARKDOWN.parse(text, self.defined)
        self.read()

    def read(self) -> None:
        """Sorts what markdown-it found."""
        reason = ""
        for at, token in enumerate(self.tokens):
            if token.type in ("fence", "code_block"):
                self.add_block(token, reason)
            elif token.type == "heading_open":
                self.add_heading(token, self.tokens[at + 1].content)
            elif token.type == "table_open":
                self.add_table(at)
            if token.map and token.type != "list_item_open":
                note = NOT_RUN.match(token.content) if token.type == "html_block" else None
                reason = note[1] if note else ""

    def add_block(self, token: Token, reason: str) -> None:
        assert token.map
        first, end = token.map
        self.prose[first:end] = [""] * (end - first)
        lines = token.content.rstrip("\n").split("\n") if token.type == "code_block" else token.content.split("\n")[:-1]
        start = first + 1 if token.type == "code_block" else first + 2
        self.blocks.append(Block(self.name, start, lines, token.info.strip(), self.sections[-1], reason))

    def add_heading(self, token: Token, title: str) -> None:
        assert token.map
        self.headings[token.map[0]] = title
        self.sections += [token.map[0]] if token.tag in ("h1", "h2") else []
        anchor, again = slug(title), 0
        while anchor in self.anchors:
            again += 1
            anchor = f"{slug(title)}-{again}"
        self.anchors.add(anchor)

    def add_table(self, at: int) -> None:
        """The rows of the table that begins with a token."""
        section = list(self.headings.values())[-1] if self.headings else ""
        rows: list[tuple[int, list[str]]] = []
        while self.tokens[at].type != "table_close":
            token = self.tokens[at]
            if token.type == "tr_open" and token.map:
                rows.append((token.map[0] + 1, []))
            elif token.type == "inline":
                rows[-1][1].append(token.content)
            at += 1
        self.rows += [Row(self.name, line, cells, rows[0][1], section) for line, cells in rows[1:]]

    def links(self) -> list[Link]:
        """Each link and picture."""
        found, row = list(self.defined_links()), 0
        for token in self.tokens:
            if token.type == "tr_open" and token.map:
                row = token.map[0]
            elif token.type == "html_block" and token.map:
                found += links_in_html(token.map[0] + 1, token.content)
            elif token.type == "inline":
                found += links_in(token.map[0] + 1 if token.map else row + 1, token.children or [])
        return found

    def defined_links(self) -> Iterator[Link]:
        """The links that are defined apart from their text."""
        for one in self.defined.get("references", {}).values():
            yield Link(one["map"][0] + 1, one["href"], False)

    def rows_of(self, *heads: str) -> list[Row]:
        """The rows of the tables whose heading begins with these cells."""
        return [row for row in self.rows if row.heads[: len(heads)] == list(heads)]

    def words_of(self, section: int) -> list[tuple[int, str]]:
        """(line, words) of each line of a section, the lines counted from 1."""
        end = min((it for it in self.sections if it > section), default=len(self.prose))
        return [(number + 1, self.prose[number]) for number in range(section, end)]

    def words_before(self, line: int) -> list[str]:
        """The lines of the section before a line that is counted from 1, the nearest first."""
        section = max(it for it in self.sections if it < line)
        return [self.prose[number] for number in range(line - 2, section - 1, -1)]

    def has(self, words: str) -> bool:
        return words in re.sub(r"\s+", " ", "\n".join(self.lines))

    def line_of(self, words: str) -> int:
        """The line that has these words, or 1."""
        return next((number + 1 for number, line in enumerate(self.lines) if words in line), 1)


def links_in_html(line: int, text: str) -> list[Link]:
    """The links of a piece of HTML."""
    return [Link(line + text[: it.start()].count("\n"), it[2], it[1] == "src") for it in IN_HTML.finditer(text)]


def links_in(line: int, parts: list[Token]) -> Iterator[Link]:
    """The links among the parts of a text that begins on a line."""
    for part in parts:
        if part.type in ("softbreak", "hardbreak"):
            line += 1
        elif part.type in ("link_open", "image"):
            target: Optional[object] = part.attrGet("href" if part.type == "link_open" else "src")
            yield Link(line, str(target), part.type == "image")
        elif part.type == "html_inline":
            yield from links_in_html(line, part.content)


@functools.lru_cache(maxsize=None)
def page(name: str) -> Page:
    return Page(name, repository.read(name))
