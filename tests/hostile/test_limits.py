"""Limits that take a long source, a long line or many steps; the others are example sessions (`.._the_limit`).

Sources of 1,048,576 bytes and of one byte more, an endless one, and what is no file; a log of 1,000,000 steps, taken back and
again one by one and all at once; an order of as many steps as a line can name. The journal's limit and that of a line are in
test_commands.py.
"""
from __future__ import annotations

from collections.abc import Callable, Iterator

import pytest

from support.program import Program
from support.tally import Tally, cut

MIB = 1 << 20
STEPS = 1_000_000
MAIN = b"package main\nfunc main() {}\n"
LOOP = b"package main\nfunc main() {\n\tfor {\n\t}\n}\n"
PAIR = b"package main\nfunc spin() {\n\tfor {\n\t}\n}\nfunc main() {\n\tgo spin()\n\tfor {\n\t}\n}\n"
RUN, FULL = b"run %d\n" % STEPS, b"ok %d count\n" % STEPS

End = tuple[int, bytes, bytes]
# A source, commands, and the output.
Long = tuple[bytes, bytes, bytes]


def names(first: int, last: int, goroutine: str = "g0") -> bytes:
    return b" ".join(b"%s#%d" % (goroutine.encode(), number) for number in range(first, last + 1))


def sources() -> Iterator[tuple[bytes, End]]:
    """Texts at the limit and past it: the text, and what comes of it."""
    for filling in (b" ", b"\n", b"\t", b"func _() {}\n", b"// comment\n", b"/**/", b"func _(a, b int) int { return a*b + 1 }\n"):
        count, rest = divmod(MIB - len(MAIN), len(filling))
        text = MAIN + filling * count + b" " * rest
        yield text, (0, b"ok 1 ended\n", b"")
        yield text + b" ", (1, b"", b"rewind: S7\n")
    for opening, filling, closing in (
        (b"/*", b"c", b"*/"), (b'func f() { println("', b"s", b'") }\n'), (b"func f", b"f", b"() {}\n"),
    ):
        text = MAIN + opening + filling * (MIB - len(MAIN) - len(opening) - len(closing)) + closing
        yield text, (0, b"ok 1 ended\n", b"")
        yield text + b"\n", (1, b"", b"rewind: S7\n")


def test_sources_at_the_limit(program: Program) -> None:
    tally = Tally()
    for text, wanted in sources():
        ended = program.run(text, b"run 2\n")
        tally.note(f"source of {len(text)} bytes", None if ended[:3] == wanted else f"{cut(text, 80)}: {ended[:3]}")
    tally.check()


@pytest.mark.parametrize(
    "path, said",
    [("/dev/zero", "S7"), ("/", "cannot read /"), ("/no/such/file", "cannot read /no/such/file"), ("", "cannot read ")],
)
def test_what_is_no_source(path: str, said: str, program: Program) -> None:
    assert program.run_words([path])[:3] == (1, b"", f"rewind: {said}\n".encode())


def all_at_once() -> Long:
    """A full log, taken back and again at once."""
    all_steps = b"ok %d %s\n" % (STEPS, names(1, STEPS))
    wanted = FULL + b"ok 0 full\nno Q1\n" + all_steps + b"ok 0\n" + all_steps + b"no B5\nok 0 full\n"
    return LOOP, RUN + b"run 1\nstep g0\nback g0#1\nlog\nredo\nredo\nrun 1\n", wanted


def one_by_one() -> Long:
    """The last steps of a full log, taken back and again one by one."""
    undone = b"".join(b"ok g0#%d\n" % number for number in range(STEPS, STEPS - 300_000, -1))
    again = b"".join(b"ok g0#%d pure\n" % number for number in range(700_002, STEPS + 1))
    commands = RUN + b"undo\n" * 300_000 + b"redo\n" + b"step g0\n" * 299_999 + b"step g0\nrun 1\n"
    return LOOP, commands, FULL + undone + b"ok 1 g0#700001\n" + again + b"no Q1\nok 0 full\n"


def what_depends() -> Long:
    """What depends on the first step of a full log, and what the last depends on."""
    all_steps = b"ok %d %s\n" % (STEPS, names(1, STEPS))
    wanted = FULL + all_steps + all_steps + b"ok 500000 %s\nok 1 count\n" % names(500_001, STEPS)
    return LOOP, RUN + b"deps g0#1\ncauses g0#%d\nback g0#500001\nrun 1\n" % STEPS, wanted


def an_order() -> Long:
    """An order of as many steps as a line can name."""
    count = 45_000
    usual, changed = names(1, count), b" ".join((names(1, 1), names(1, count, "g0.1"), names(2, count)))
    log = b"".join(b"| g0.1#%d pure\n" % number for number in range(1, count + 1))
    log += b"".join(b"| g0#%d pure\n" % number for number in range(2, count + 1))
    commands = b"run %d\norder %s\norder %s\nlog\n" % (2 * count, usual, changed)
    return PAIR, commands, b"ok %d count\nno B3\nok\n| g0#1 go\n" % (2 * count) + log + b"ok %d\n" % (2 * count)


def difference(wanted: bytes, got: bytes) -> str:
    """Where an output is another one than is wanted."""
    place = next((at for at, (due, seen) in enumerate(zip(wanted, got)) if due != seen), min(len(wanted), len(got)))
    return f"from byte {place} on {cut(got[place:], 100)}"


@pytest.mark.long
@pytest.mark.parametrize("made", [all_at_once, one_by_one, what_depends, an_order])
def test_a_long_session(made: Callable[[], Long], program: Program) -> None:
    source, commands, wanted = made()
    ended = program.run(source, commands)
    assert (ended.status, ended.error) == (0, b"")
    assert ended.output == wanted, difference(wanted, ended.output)
