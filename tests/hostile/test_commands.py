"""Hostile commands: each line gets the one reply that docs/COMMANDS.md gives it, and a rejected line changes nothing.

Random bytes and random words; every command with every kind of wrong word, with a word too many and one too few; lines of up
to 16 MiB. Which lines are commands is said here once more, by patterns. A line that is one gets a reply of its form, a blank line
none, every other line `? bad command`; and before and after every hundred rejected lines all is the same that the session tells:
its log, console, goroutines, texts and channels, and what `redo` takes again. 2,000,000 commands fill the journal: the next gets
`no Q1`, and rejected lines among them take no place in it.

In the short form the wrong words are those of one session, 4,000 lines are random, and no line is longer than the limit and one byte.
"""
from __future__ import annotations

import random
import re
from collections.abc import Callable, Iterator

import pytest

from support.forms import short_first
from support.program import Program
from support.replies import asked, questions, replies_in, steps_of
from support.tally import Tally, cut

from .examples import FAULTS, KIND, NAMED, STEP, examples, script_of
from .sources import KEYWORDS

LIMIT = 1 << 20
ENTRIES = 2_000_000
MOST = 4_294_967_295
STEPS_ASKED = 1_000_000
STEPS = rf"(?: {STEP})*"
BACK = rf"ok \d+{STEPS}|no B2|no B6 \d+{STEPS}"
ASKED = rf"ok \d+{STEPS}|no B2"
LINES = r"(?:\| .*\n)*ok"

# Each command: the words that it has, and the forms of its replies.
COMMANDS = {
    "step G": rf"ok {STEP} {KIND}|no N[1-6]|no Q1",
    "step G I": rf"ok {STEP} (?:pick [1-9]\d*|fault (?:{FAULTS}))|no N[1-6]|no Q1",
    "run N": r"ok \d+ (?:ended|fault|count|stuck|full|memory|break [1-9]\d*)",
    "free Z": r"ok grant \d+",
    "undo": rf"ok {STEP}|no B1|no B6 0",
    "back S": BACK, "back go G": BACK, "back send C I": BACK, "back recv C I": BACK, "back var G X": BACK,
    "redo": rf"ok \d+{STEPS}|no B5|no B6 \d+{STEPS}",
    "order S ..": rf"ok|no B3|no B4 {STEP} {STEP}|no B6 0",
    "deps S": ASKED, "causes S": ASKED,
    "break I": "ok", "clear I": "ok",
    "show G": rf"\| {NAMED} (?:(?:ready|waiting) \d+ line [1-9]\d*|done \d+)\n{LINES}|no N2",
    "chan C": r"\| cap \d+ (?:open|closed)\n\| items(?: \S+)*\n\| senders(?: \S+)*\n\| receivers(?: \S+)*\nok|no N2",
    "text G": LINES + "|no N2", "console": LINES,
    "log": rf"(?:\| {STEP} {KIND}\n)*ok \d+",
    "quit": "ok",
}
FORMS = {form: re.compile(pattern.encode()) for form, pattern in COMMANDS.items()}


def number_of(word: bytes, least: int, most: int) -> bool:
    return re.fullmatch(rb"0|[1-9]\d{0,19}", word) is not None and least <= int(word) <= most


def is_goroutine(word: bytes) -> bool:
    counts = word.split(b".")
    return counts[0] == b"g0" and all(number_of(count, 1, MOST) for count in counts[1:])


def is_of(word: bytes, mark: bytes, most: int) -> bool:
    """Whether the word is a goroutine, this mark and a number."""
    goroutine, found, count = word.rpartition(mark)
    return bool(found) and is_goroutine(goroutine) and number_of(count, 1, most)


IS_WORD: dict[str, Callable[[bytes], bool]] = {
    "G": is_goroutine, "C": lambda word: is_of(word, b"/c", MOST), "S": lambda word: is_of(word, b"#", 2**64 - 1),
    "I": lambda word: number_of(word, 1, MOST), "N": lambda word: number_of(word, 1, STEPS_ASKED),
    "Z": lambda word: number_of(word, 0, STEPS_ASKED),
    "X": lambda word: re.fullmatch(rb"[A-Za-z_][A-Za-z_0-9]*", word) is not None and word.decode() not in KEYWORDS,
}


def is_word(part: str, word: bytes) -> bool:
    """Whether a word stands for a part of a form: of its kind, or the word itself."""
    return IS_WORD[part](word) if part in IS_WORD else word == part.encode()


def fits(form: str, words: list[bytes]) -> bool:
    """Whether the words are a command of this form."""
    parts = form.split()
    if parts[-1] == "..":
        parts = parts[:1] + [parts[1]] * max(1, len(words) - 1)
    return len(parts) == len(words) and all(map(is_word, parts, words))


def form_of(line: bytes) -> str:
    """The form of the command that a line is; else `blank` or `rejected`."""
    if len(line) > LIMIT:
        return "rejected"
    words = [word for word in re.split(rb"[ \t]", line[:-1] if line.endswith(b"\r") else line) if word]
    return next((form for form in COMMANDS if fits(form, words)), "rejected") if words else "blank"


def answer_is(form: str, reply: bytes) -> bool:
    if form == "rejected":
        return reply == b"? bad command"
    return FORMS[form].fullmatch(reply) is not None or reply in (b"no Q1", b"no Q2")


WORDS = ("step run undo back redo order deps causes break clear free show chan text console log go send recv var g0 g0.1 g0.1.1 g0.2 "
         "g0/c1 g0.1/c1 g0/c2 g0#1 g0#2 g0.1#1 g0.2#1 x v c 1 2 3 9 0 1000000 1000001 4294967295 4294967296 18446744073709551615 "
         "18446744073709551616").split()
WRONG = WORDS + ("g g1 g00 g0. g0.0 g0.01 g0.4294967295 g0.4294967296 g0..1 .g0 g0.1. G0 g0.-1 g0.1x g0/c0 g0/c g0/ g0/1 g0/c01 g0/c1#1 "
                 "g0c1 /c1 g0/c4294967295 g0/c4294967296 g0# g0#0 g0#01 #1 g0##1 g0#18446744073709551615 g0#18446744073709551616 "
                 "g0/c1/c1 g0#1#1 -1 +1 00 01 1.0 0x1 1e3 1_0 x1 1x _ _x X for int true steps ste Step STEP log; 'log'").split()
WRONG += ["", "\x00", "\x7f", "\x80", "\xff", "\xc3\xa9", "g0\x00", "1\x00", "\r", "\x0b", "\x0c", "\u00a0", "9" * 19, "9" * 20, "9" * 400,
          "g0" + ".1" * 32, "g0" + ".1" * 33, "g0" + ".1" * 500, "g0" + ".4294967295" * 40, "a" * 5000]
# Words of each kind that are right.
RIGHT: dict[str, tuple[str, ...]] = {
    "G": ("g0", "g0.1", "g0.2"), "C": ("g0/c1", "g0/c2"), "S": ("g0#1", "g0#2", "g0#9", "g0.1#1"), "I": ("1", "2", "7"),
    "N": ("1", "3"), "Z": ("0", "5"), "X": ("v", "x", "balance"), "..": ("g0#2", "g0.1#1"),
}


def every_wrong_word() -> Iterator[str]:
    """Every command with every word in each of its places, with one word more and with each word left out."""
    for form in COMMANDS:
        words = [RIGHT.get(part, (part,))[0] for part in form.split()]
        for wrong in WRONG:
            for at in range(len(words)):
                yield " ".join(words[:at] + [wrong] + words[at + 1:])
                yield " ".join(words[:at] + [wrong] + words[at:])
            yield " ".join(words + [wrong])
        for at in range(len(words)):
            yield " ".join(words[:at] + words[at + 1:])


def random_line(chance: random.Random) -> bytes:
    """Random bytes, random words, or a command, of which a word may be wrong."""
    way = chance.random()
    if way < 0.2:
        return bytes(chance.getrandbits(8) for _ in range(int(2 ** chance.uniform(0, 8)))).replace(b"\n", b"")
    if way < 0.3:
        return bytes(chance.choice(b"stepg0.1#/c 23\t\rundorlbackv") for _ in range(chance.randint(0, 30)))
    words = [chance.choice(WORDS) for _ in range(chance.randint(1, 4))]
    if way > 0.5:
        words = [chance.choice(RIGHT.get(part, (part,))) for part in chance.choice(list(COMMANDS)).split()]
    if way > 0.9:
        words[chance.randrange(len(words))] = chance.choice(WRONG)
    gap = chance.choice((" ", " ", " ", "\t", "  ", " \t "))
    text = chance.choice(("", "", "", " ")) + gap.join(words) + chance.choice(("", "", "", " ", "\r", "\r\r"))
    return text.encode("latin-1")


def long_lines(lengths: tuple[int, ...]) -> Iterator[bytes]:
    """Lines up to the limit and past it."""
    for length in lengths:
        for beginning, filling, end in (
            (b"log", b" ", b""), (b"", b" ", b"log"), (b"log", b" ", b"\r"), (b"", b"log ", b""), (b"", b"\t", b""), (b"", b"x", b""),
            (b"", b"\x00", b""), (b"run ", b"0", b""), (b"run ", b"9", b""), (b"show g0", b".1", b""), (b"order", b" g0#1", b""),
            (b"order", b" g0.1#1", b""), (b"back var g0 ", b"a", b""),
        ):
            room = length - len(beginning) - len(end)
            yield (beginning + filling * (room // len(filling)) + b" " * (room % len(filling)) + end)


class Talk:
    """A session that is asked hostile lines after the commands of an example, the last step of which is taken back."""

    def __init__(self, name: str, program: Program) -> None:
        self.name, self.program, self.tally = name, program, Tally()
        self.source, self.prepared = examples()[name], script_of(name) + [b"undo"]
        self.log = steps_of(replies_in(self.program.run(self.source, asked(self.prepared + [b"log"])).output)[-1])
        # Queries have no place in the journal's meaning; `redo` and `run` show what may be taken again, and breakpoints.
        self.questions, self.last = questions(self.log), [b"redo", b"run 9", b"log"]
        self.usual = self.answers(self.questions + self.last)

    def answers(self, lines: list[bytes]) -> list[bytes]:
        """The replies to lines, each as one text, or none where the session does not end as it has to."""
        ended = self.program.run(self.source, asked(self.prepared + lines))
        said = [b"\n".join(reply) for reply in replies_in(ended.output)][len(self.prepared) :]
        if (ended.status, ended.error) != (0, b""):
            self.tally.failures.append(f"{self.name}: status {ended.status}, {cut(ended.error, 80)}")
        return said

    def judge(self, lines: list[bytes], said: list[bytes]) -> None:
        """Looks at the reply to each line."""
        forms = [form_of(line) for line in lines]
        if len(said) != sum(form != "blank" for form in forms):
            self.tally.failures.append(f"{self.name}: {len(said)} replies to {cut(b'|'.join(lines), 2000)}")
            return
        left = iter(said)
        for line, form in zip(lines, forms):
            reply = b"" if form == "blank" else next(left)
            is_right = form == "blank" or answer_is(form, reply)
            self.tally.note(form, None if is_right else f"{self.name}: {cut(line, 200)} gets {cut(reply, 200)}")

    def ask(self, lines: list[bytes]) -> None:
        """Asks lines that may change the session."""
        lines = [line for line in lines if form_of(line) != "quit"]
        self.judge(lines, self.answers(lines))

    def ask_rejected(self, lines: list[bytes]) -> None:
        """Asks those of the lines that are rejected or blank, and looks every hundred of them that nothing has changed."""
        lines = [line for line in lines if form_of(line) in ("blank", "rejected")]
        parts = [lines[at : at + 100] for at in range(0, len(lines), 100)]
        said = self.answers([line for part in parts for line in part + self.questions] + self.last)
        for part in parts:
            count = sum(form_of(line) == "rejected" for line in part)
            self.judge(part, said[:count])
            shown, said = said[count : count + len(self.questions)], said[count + len(self.questions) :]
            if shown != self.usual[: len(self.questions)]:
                self.tally.failures.append(f"{self.name}: changed by one of {cut(b'|'.join(part), 2000)}")
        if said != self.usual[len(self.questions) :]:
            self.tally.failures.append(f"{self.name}: what `redo` or `run` does is changed")


NAMES = ("swapped_variables", "lost_update", "deadlock", "send_on_closed", "buffered_channel", "prime_sieve", "default_selection")
LENGTHS = short_first([(LIMIT, LIMIT + 1)], [(LIMIT - 1, LIMIT + 2, 2 * LIMIT, 16 * LIMIT)])


@pytest.mark.parametrize("name", short_first(NAMES[:1], NAMES))
def test_every_wrong_word(name: str, program: Program, told: Callable[[str], None]) -> None:
    talk = Talk(name, program)
    lines = [line.encode("latin-1").replace(b"\n", b"") for line in every_wrong_word()]
    for at in range(0, len(lines), 2000):
        talk.ask(lines[at : at + 2000])
        talk.ask_rejected(lines[at : at + 2000])
    told(talk.tally.check())


@pytest.mark.parametrize("thousand", short_first(range(4), range(400)))
def test_random_lines(thousand: int, seed: int, program: Program, told: Callable[[str], None]) -> None:
    """A thousand random lines."""
    chance = random.Random(seed + thousand)
    talk = Talk(chance.choice(NAMES), program)
    lines = [random_line(chance) for _ in range(1000)]
    talk.ask(lines[:500])
    talk.ask_rejected(lines[500:])
    told(talk.tally.check())


@pytest.mark.long
@pytest.mark.parametrize("lengths", LENGTHS, ids=lambda lengths: str(lengths[0]))
def test_long_lines(lengths: tuple[int, ...], program: Program, told: Callable[[str], None]) -> None:
    """Lines at the limit and past it; the last of them has no newline."""
    talk = Talk("lost_update", program)
    for line in long_lines(lengths):
        talk.ask([line, b"log"])
        talk.ask_rejected([line])
        ended = program.run(talk.source, line)
        wanted = form_of(line)
        got = b"\n".join(line for reply in replies_in(ended.output) for line in reply)
        is_right = (wanted == "blank") == (not got) and (not got or answer_is(wanted, got))
        talk.tally.note(wanted, None if is_right else f"{cut(line, 40)} without a newline gets {cut(got, 200)}")
    told(talk.tally.check())


@pytest.mark.long
def test_a_full_journal(program: Program) -> None:
    """Commands that fill the journal, and rejected lines among them, which take no place."""
    among = b"stp g0\n\nlog 1\n" * 1000
    script = among + b"free 0\n" * (ENTRIES - 1) + among + b"run 1\nundo\nlog\nrun 2\nbad\nstep g0\n"
    rejected, granted = b"? bad command\n", b"ok grant 0\n" * (ENTRIES - 1)
    wanted = rejected * 2000 + granted + rejected * 2000 + b"ok 1 count\n" + b"no Q1\n" * 3 + rejected + b"no Q1\n"
    ended = program.run(examples()["lost_update"], script)
    assert ended.status == 0
    assert ended.output == wanted, f".. {ended.output[-200:]!r}"
