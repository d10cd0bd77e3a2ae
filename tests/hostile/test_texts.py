"""Hostile sources: each must be opened, or refused by an S, P or C code at a place inside the text.

Every beginning of each example source, and each of its bytes replaced by 00, 22 and FF; random bytes and random tokens;
well-typed programs, which must be opened; files of the grammar, which only the checker may refuse; both broken in one place;
forms nested up to the limit of levels, past it, and as deep as a text can be; texts of 1 MiB that are one token, or one
token over and over; and the time of 1,000 texts of 64 KiB, of which the worst takes at most 5 times as long as the median.

The short form has three examples, a hundred random texts of each kind and forms of up to 2,000 levels. No text of it is of 1 MiB
or timed.
"""
from __future__ import annotations

import random
import re
import statistics
from collections.abc import Callable, Iterator
from typing import Optional

import pytest

from support.forms import short_first
from support.program import Ended, Program
from support.tally import Tally, cut

from .examples import examples
from .nesting import FORMS, MIB, depths
from .sources import KEYWORDS, LITERALS, MALFORMED, NAMES, OPERATORS, Grammar, Typed, broken, random_bytes, token_list

REFUSED = re.compile(rb"rewind: (S[1-6]|P[1-3]|C[1-9]|C10) at (\d+):(\d+)\n")
# Examples that are cut and changed in the short form, and how deep a form is nested there at most.
SHORT = ("deadlock", "hand_over", "lost_update")
SHORT_DEPTH = 2000
RUN = re.compile(rb"ok \d+ (ended|fault|count|stuck)\n")
REPLACED = (0x00, 0x22, 0xFF)
# How many parts the texts of 1 MiB come in, and those that are timed; how many are timed, and what they are in turn.
PARTS = 8
TIMED = 1000
TIMED_KINDS = ("programs", "programs broken near their end", "files of the grammar", "nested forms side by side")
# How much longer the worst text of 64 KiB may take than the median, and one of 1 MiB than it, 16 times as long.
WORST, LONGER = 5.0, 20.0


def is_inside(text: bytes, line: int, column: int) -> bool:
    """Whether the place is that of a byte of the text, or its end."""
    lines = text.split(b"\n")
    return 1 <= line <= len(lines) and 1 <= column <= len(lines[line - 1]) + 1


def verdict(text: bytes, ended: Ended) -> tuple[str, Optional[str]]:
    """What came of a text: `opened` or a code, and what is wrong with that, if anything is."""
    if ended.status == 0 and RUN.fullmatch(ended.output) and not ended.error:
        return "opened", "opened although it is too long" if len(text) > MIB else None
    refused = REFUSED.fullmatch(ended.error)
    if ended.status == 1 and not ended.output and refused:
        inside = is_inside(text, int(refused[2]), int(refused[3]))
        return refused[1].decode(), None if inside else f"a place outside the text: {refused[0]!r}"
    if ended.status == 1 and not ended.output and ended.error == b"rewind: S7\n":
        return "S7", "S7 of a text that is not too long" if len(text) <= MIB else None
    return "neither", f"status {ended.status}, {cut(ended.output, 100)}, {cut(ended.error, 100)}"


def tried(tally: Tally, program: Program, text: bytes, *allowed: str) -> tuple[str, Ended]:
    """Notes what comes of a text; `allowed` has the beginnings of the verdicts that it may get, if not every one."""
    ended = program.run(text, b"run 50\n")
    what, wrong = verdict(text, ended)
    if allowed and not wrong and not what.startswith(allowed):
        wrong = f"{what}, not one of {' '.join(allowed)}"
    tally.note(what, wrong and f"{wrong}: {cut(text, 600)}")
    return what, ended


@pytest.mark.parametrize("name", short_first(SHORT, examples()))
def test_an_example_cut_and_changed(name: str, program: Program, told: Callable[[str], None]) -> None:
    """The beginnings of an example, and its bytes replaced."""
    tally, text = Tally(), examples()[name]
    for end in range(len(text) + 1):
        tried(tally, program, text[:end])
    for at in range(len(text)):
        for byte in REPLACED:
            tried(tally, program, text[:at] + bytes([byte]) + text[at + 1 :])
    told(tally.check())


@pytest.mark.parametrize("number", short_first([0], range(60)))
def test_random_texts(number: int, seed: int, program: Program, told: Callable[[str], None]) -> None:
    """A hundred random texts of each kind."""
    tally, chance = Tally(), random.Random(seed + number)
    for _ in range(100):
        tried(tally, program, random_bytes(chance))
        tried(tally, program, token_list(chance))
        typed, spelt = Typed(chance).program(), Grammar(chance).file()
        tried(tally, program, typed, "opened")
        tried(tally, program, spelt, "opened", "C")
        tried(tally, program, broken(chance, typed))
        tried(tally, program, broken(chance, spelt))
    told(tally.check())


def test_nesting(program: Program, pytestconfig: pytest.Config, told: Callable[[str], None]) -> None:
    """Each form that nests, at every depth."""
    tally, is_full = Tally(), pytestconfig.getoption("--full")
    for form, (text, most) in FORMS.items():
        for depth in depths(form):
            if depth > SHORT_DEPTH and not is_full:
                break
            what, _ = tried(tally, program, text(depth).encode())
            if most and (what == "P3") != (depth > most):
                tally.failures.append(f"{form}, {depth} deep: {what}, with a limit of {most}")
    told(tally.check())


def long_texts(size: int) -> Iterator[bytes]:
    """Texts of this size that are one token, or one token over and over, alone and in the body of a function."""
    tokens = KEYWORDS + OPERATORS + NAMES + LITERALS + MALFORMED + ["\n", " ", "\t", "\r", "//\n", "/**/", "/*\n*/", "\ufeff"]
    for token in tokens:
        piece = token.encode("latin-1") if token != "\ufeff" else token.encode()
        for joint in (b"", b" "):
            yield (piece + joint) * (size // len(piece + joint))
            opening = b"package main\nfunc main() {\n"
            yield opening + (piece + joint) * ((size - len(opening)) // len(piece + joint))
    for first, filling, closing in (
        (b"a", b"a", b"a"), (b"1", b"0", b"1"), (b"0x", b"F", b"F"), (b"0", b"_0", b"7"), (b'"', b"s", b'"'), (b'"', b"\\t", b'"'),
        (b"//", b"c", b"\n"), (b"/*", b"*", b"*/"), (b"/*", b"\n", b"*/"),
    ):
        long = first + filling * ((size - 60) // len(filling)) + closing
        yield long
        yield b"package main\nfunc main() {\n\tprintln(" + long + b")\n}\n"


@pytest.mark.full
@pytest.mark.timeout(3600)
@pytest.mark.parametrize("part", range(PARTS))
def test_texts_of_1_mib(part: int, program: Program, told: Callable[[str], None]) -> None:
    """A part of the texts of 1 MiB, each beside the same of 64 KiB, whose time it may take 16 times."""
    tally = Tally()
    for number, (text, short) in enumerate(zip(long_texts(MIB), long_texts(MIB // 16))):
        if number % PARTS == part:
            ended = tried(tally, program, text)[1]
            ratio = ended.seconds / max(1e-3, tried(tally, program, short)[1].seconds)
            if ratio > LONGER:
                ratio = least(program, text, 5) / max(1e-3, least(program, short, 5))
            if ratio > LONGER:
                tally.failures.append(f"{ratio:.1f} times as long for 1 MiB as for 64 KiB: {cut(text, 60)}")
    told(tally.check())


def least(program: Program, text: bytes, times: int) -> float:
    return min(program.run(text, b"").seconds for _ in range(times))


def filled(size: int, piece: Callable[[], str]) -> bytes:
    """A file of this size of functions, each of them what `piece` gives."""
    parts = ["package main\nfunc f(x int) int { return x }\nfunc main() {}\n"]
    left = size - len(parts[0])
    while left > 0:
        parts.append(piece() + "\n")
        left -= len(parts[-1])
    return "".join(parts).encode()


def timed_text(seed: int, number: int) -> bytes:
    """A text of 64 KiB: a program, one that is broken near its end, a file of the grammar, or nested forms side by side."""
    size, chance = MIB // 16, random.Random(seed * 1000 + number)
    if number % 4 < 2:
        text = Typed(chance).program(size)
        return text if number % 4 == 0 else text[:-2000] + broken(chance, text[-2000:])
    if number % 4 == 2:
        return filled(size, lambda: Grammar(chance).function("_"))
    form, most = FORMS[chance.choice([name for name in FORMS if FORMS[name][1] and name not in ("parameters", "results")])]
    piece = form(chance.randint(1, most)).split("func main()", 1)[1].rstrip()
    return filled(size, lambda: "func _()" + piece)


@pytest.mark.full
@pytest.mark.timeout(3600)
def test_the_time_of_a_text(seed: int, program: Program, told: Callable[[str], None]) -> None:
    """Compares the worst time of a text with the median."""
    times = sorted((least(program, timed_text(seed, number), 3), number) for number in range(TIMED))
    median, (worst, slowest) = statistics.median(time for time, _ in times), times[-1]
    for kind, name in enumerate(TIMED_KINDS):
        own = [seconds for seconds, number in times if number % len(TIMED_KINDS) == kind]
        told(f"{name}: median {statistics.median(own) * 1e3:.1f} ms, worst {max(own) * 1e3:.1f} ms")
    assert worst <= WORST * median, f"text {slowest} takes {worst / median:.1f} times as long as the median, at most {WORST}"
