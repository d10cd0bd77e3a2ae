#!/usr/bin/env python3
"""How long the sentences of the documents are.

    python3 -m tools.docs.sentences [--longest N] [DOCUMENT..]      (20 longest of each; all documents)
    python3 -m tools.docs.sentences --check [DOCUMENT..]

Prints for each document how many sentences it has, their median of words, and how many have over 35, and then the longest.
Code blocks and headings are left out; a cell of a table and an entry of a list are sentences. With --check it prints only
the sentences of over 35 words, without the tables that words/make.py makes, and the status is 1 where there are any.
"""
import argparse
import glob
import os
import re
import statistics
import sys
from collections.abc import Iterable, Iterator

TOP = os.path.dirname(os.path.dirname(os.path.dirname(os.path.realpath(__file__))))
MOST = 35


def documents() -> list[str]:
    found = glob.glob(f"{TOP}/*.md") + glob.glob(f"{TOP}/*/*.md") + glob.glob(f"{TOP}/*/*/*.md")
    return sorted(os.path.relpath(it, TOP) for it in found if "/out/" not in it and "/node_modules/" not in it)


def lines_of(text: str, with_made: bool) -> Iterator[str]:
    """The lines outside code blocks and comments; with the tables that are made from `words`, or without them."""
    if not with_made:
        text = re.sub(r"<!-- words: (\w+) -->.*?<!-- end of \1 -->", "", text, flags=re.S)
    text = re.sub(r"<!--.*?-->", "", text, flags=re.S)
    fenced = False
    for line in text.splitlines():
        if re.match(r"\s*(```|~~~)", line):
            fenced = not fenced
        elif not fenced and not line.startswith(("    ", "\t", "#")):
            yield line


def pieces(line: str) -> list[str]:
    """What stands for itself in a line: the cells of a row, or the line."""
    if line.startswith("|"):
        return [it.strip() for it in re.split(r"(?<!\\)\|", line.strip("|"))]
    return [re.sub(r"^\s*([-*]|\d+\.)\s+", "", line)]


def sentences(path: str, with_made: bool = True) -> Iterator[str]:
    """The sentences of a document, with code and links as one word each."""
    with open(os.path.join(TOP, path), encoding="utf-8") as file:
        text = file.read()
    for line in lines_of(text, with_made):
        for piece in pieces(line):
            piece = re.sub(r"`[^`]*`", "CODE", piece)
            piece = re.sub(r"!?\[([^\]]*)\]\([^)]*\)", r"\1", piece).replace("**", "")
            for sentence in re.split(r"(?<=[^.][.!?])\s+|(?<=[:;])\s+(?=[A-Z*'\"(])", piece):
                if len(sentence.split()) > 1:
                    yield sentence


def too_long(paths: Iterable[str]) -> Iterator[str]:
    """A line for each sentence that is too long."""
    for path in paths:
        for it in sentences(path, with_made=False):
            if len(it.split()) > MOST:
                yield f"{path}: a sentence of {len(it.split())} words: {it[:100]}"


def main() -> int:
    parser = argparse.ArgumentParser(description=__doc__.splitlines()[0])
    parser.add_argument("--check", action="store_true")
    parser.add_argument("--longest", type=int, default=20)
    parser.add_argument("documents", nargs="*")
    given = parser.parse_args()
    paths = given.documents or documents()
    if given.check:
        told = list(too_long(paths))
        print("\n".join(told) or f"no sentence has over {MOST} words")
        return 1 if told else 0
    for path in paths:
        found = sorted(sentences(path), key=lambda it: -len(it.split()))
        if not found:
            continue
        lengths = [len(it.split()) for it in found]
        long = sum(1 for it in lengths if it > MOST)
        print(f"{path}: {len(found)} sentences, median {statistics.median(lengths):g} words, {long} over {MOST}")
        for it in found[: given.longest]:
            print(f"  {len(it.split()):3} {it}")
    return 0


if __name__ == "__main__":
    sys.exit(main())
