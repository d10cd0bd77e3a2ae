#!/usr/bin/env python3
"""The documents for users as one file of HTML, whose links work without the repository.

    python3 -m tools.release.book OUT.html      (by a Python that has markdown_it: Debian's python3-markdown-it)

The book has README.md and what its list of documents names under 'To use it' and 'To believe it'. A link to what the book does not
have becomes plain text.
"""
from __future__ import annotations

import argparse
import os
import re
from collections.abc import Iterator

from markdown_it import MarkdownIt

from tools.release.versions import version

TOP = os.path.dirname(os.path.dirname(os.path.dirname(os.path.realpath(__file__))))
PARTS = ("To use it", "To believe it")
LINK = re.compile(r"\[[^]]*\]\(([^)#]+\.md)\)")
FRAME = """<!doctype html>
<html lang="en">
<meta charset="utf-8">
<meta name="viewport" content="width=device-width, initial-scale=1">
<title>Rewind VERSION</title>
<style>
body { max-width: 52rem; margin: 2rem auto; padding: 0 1rem; font: 16px/1.5 system-ui, sans-serif; color: #1a1a1a; background: #fff }
pre { overflow-x: auto; padding: .6rem; background: #f4f4f4 } code { background: #f4f4f4 }
table { border-collapse: collapse } td, th { border: 1px solid #ccc; padding: .2rem .5rem; text-align: left; vertical-align: top }
article + article { border-top: 2px solid #888; margin-top: 3rem }
</style>
BODY
</html>
"""


def read(name: str) -> str:
    with open(f"{TOP}/{name}", encoding="utf-8") as file:
        return file.read()


def slug(heading: str) -> str:
    """The anchor of a heading, as GitHub makes it."""
    return re.sub(r"[^\w\- ]", "", heading.lower()).replace(" ", "-")


def names() -> list[str]:
    """The documents of the book, README first."""
    found = ["README.md"]
    for line in read("README.md").splitlines():
        if line.startswith(tuple(f"- {part}: " for part in PARTS)):
            found += LINK.findall(line)
    return list(dict.fromkeys(found))


class Book:
    """The documents by their names, with the anchors that each has."""

    def __init__(self) -> None:
        self.reader = MarkdownIt("commonmark").enable("table")
        self.tokens = {name: self.reader.parse(read(name)) for name in names()}
        self.anchors = {name: set(self.headings(name)) for name in self.tokens}

    def headings(self, name: str) -> Iterator[str]:
        """The anchors of a document's headings, in their order; each heading is given its own."""
        seen: dict[str, int] = {}
        for at, token in enumerate(self.tokens[name]):
            if token.type == "heading_open":
                title = "".join(it.content for it in self.tokens[name][at + 1].children or [] if it.type in ("text", "code_inline"))
                anchor, again = slug(title), seen.get(slug(title), 0)
                seen[anchor] = again + 1
                anchor += f"-{again}" if again else ""
                token.attrSet("id", place(name, anchor))
                yield anchor

    def link(self, name: str, target: str) -> str | None:
        """Where a link of a document leads in the book, or out of it to the web; nothing where it leads to what the book lacks."""
        if re.match(r"[a-z]+:", target):
            return target
        path, _, anchor = target.partition("#")
        other = os.path.normpath(os.path.join(os.path.dirname(name), path)) if path else name
        if other not in self.tokens or anchor and anchor not in self.anchors[other]:
            return None
        return "#" + place(other, anchor)

    def linked(self, name: str) -> None:
        for token in self.tokens[name]:
            for part in token.children or []:
                if part.type == "link_open":
                    target = self.link(name, str(part.attrGet("href")))
                    part.attrs = {"href": target} if target else {"title": "not in this book"}
                elif part.type == "image":
                    part.type, part.attrs, part.children = "text", {}, None

    def html(self) -> str:
        parts = []
        for name, tokens in self.tokens.items():
            self.linked(name)
            parts.append(f'<article id="{place(name, "")}">\n{self.reader.renderer.render(tokens, self.reader.options, {})}</article>')
        return "\n".join(parts)


def place(name: str, anchor: str) -> str:
    """The place of a heading in the book, or that of a document."""
    document = name.removesuffix(".md").replace("/", "-").lower()
    return f"{document}--{anchor}" if anchor else document


def book() -> str:
    return FRAME.replace("VERSION", version()).replace("BODY", Book().html())


def main() -> None:
    parser = argparse.ArgumentParser(description="The documents for users as one file of HTML.")
    parser.add_argument("out", metavar="OUT.html")
    asked = parser.parse_args()
    with open(asked.out, "w", encoding="utf-8") as out:
        out.write(book())


if __name__ == "__main__":
    main()
