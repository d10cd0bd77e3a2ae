"""The page says of a refused source what the clients say: of each source in refused, and of accepted programs with a token changed.

It is left out where there is no node.
"""
from __future__ import annotations

import json
import random
import shutil
import subprocess

import pytest

from checking import SOURCES, Code, checked_all, source_of
from rewind_client.refusals import explain_refusal
from rewind_client.refused.tokens import Token, tokens_of
from support.places import EXAMPLES, TOP

PROGRAMS = sorted(EXAMPLES.glob("*.go"))
CHANGES = 120
OTHER = [
    "defer", "[", "*x", "&x", "1.5", "'a'", '"text"', "switch", "fmt.Println(1)", "mu.Lock()", "import", "}", "{", "(", ")", ":=", "=", "!",
    "<-", "chan", "undefined", "func", "nil", "é", "\u00a0", "\u201cx\u201d", "\r", "/*", "`", "08", "1_", "9" * 30, ":", ";", ",", "...",
]  # fmt: skip


def said_by_the_clients(source: str, code: Code) -> list[object]:
    refusal = explain_refusal(source, *code)
    assert refusal.sentence and refusal.text("x.go") and refusal.brief()
    return [refusal.line, refusal.column, refusal.sentence, refusal.instead or "", refusal.hint or ""]


def said_by_the_page(cases: list[tuple[str, Code]]) -> list[list[object]]:
    """What the page's own modules say, run by node."""
    words = ["node", str(TOP / "page" / "test" / "explained.mjs")]
    given = json.dumps([[source, *code] for source, code in cases])
    done = subprocess.run(words, input=given, capture_output=True, text=True, check=False)
    assert done.returncode == 0, done.stderr
    told: list[list[object]] = json.loads(done.stdout)
    return told


def with_a_change(chance: random.Random, source: str) -> str:
    """The source with one token dropped, doubled, or replaced by another."""
    tokens = [token for token in tokens_of(source) if token.kind not in ("end", "file")]
    token: Token = chance.choice(tokens)
    others = ["", f"{token.text} {token.text}", chance.choice(tokens).text, chance.choice(OTHER)]
    return source[: token.offset] + chance.choice(others) + source[token.offset + len(token.text) :]


def compare(sources: list[str]) -> int:
    """Compares what is said of those that are refused, and tells how many these are."""
    cases = [(source, code) for source, code in zip(sources, checked_all(sources)) if code]
    assert said_by_the_page(cases) == [said_by_the_clients(source, code) for source, code in cases]
    return len(cases)


@pytest.mark.skipif(shutil.which("node") is None, reason="there is no node")
def test_the_page_says_the_same_of_each_source() -> None:
    sources = [source_of(path) for path in SOURCES]
    texts = [source for source in sources if not any("\udc80" <= sign <= "\udcff" for sign in source)]
    assert compare(texts) == len(texts) > 500


@pytest.mark.skipif(shutil.which("node") is None, reason="there is no node")
@pytest.mark.parametrize("seed", [1, 2, 3])
def test_the_page_says_the_same_of_a_changed_program(seed: int) -> None:
    chance = random.Random(seed)
    sources = [with_a_change(chance, source_of(chance.choice(PROGRAMS))) for _ in range(CHANGES)]
    assert compare(sources) > CHANGES // 2
