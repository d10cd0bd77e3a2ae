"""The words of the shell and of Rewind: how each is used and what it does."""
from __future__ import annotations

import difflib
import re
from collections.abc import Sequence
from typing import NamedTuple, Optional

from rewind_client.core import words_of
from rewind_client.names import is_goroutine


class Word(NamedTuple):
    """A word with its abbreviations, its use, what it does in a line, and more. It takes at most so many words behind it."""

    name: str
    short: str
    use: str
    does: str
    more: str = ""
    most: Optional[int] = None


LOOKING = [
    Word("why", "w", "why", "why the program stands: deadlock, panic, end, and who waits for whom", most=0),
    Word("goroutines", "gs", "goroutines", "each goroutine with its state, line and function", most=0),
    Word(
        "goroutine",
        "g",
        "goroutine G",
        "choose the goroutine that step, next, bt and others are about",
        "Alone it tells which is chosen.",
        1,
    ),
    Word("channels", "cs", "channels", "each channel with its name in the source, its items and who waits", most=0),
    Word("bt", "where", "bt [G]", "the frames of a goroutine, each with its line and variables", most=1),
    Word("list", "l", "list [LINE | FUNCTION]", "the source around a line, with who stands there", most=1),
    Word("carried", "", "carried [LINE]", "what is run in place of a source that was carried over, around a line of the source", most=1),
    Word(
        "print",
        "p",
        "print X",
        "a variable of the chosen goroutine, a channel, or an expression",
        "A channel is named as other replies name it: print c, print g0/c1. An expression has variables, numbers, len and cap:"
        " print 2*n, print len(c).",
    ),
    Word(
        "history",
        "hi",
        "history [N | G | CHANNEL | all]",
        "the log with line, channel and value of each step",
        "The last 40 steps, or N, or all. With a goroutine or a channel the steps of it alone. CHANNEL is a name as g0/c1, or the"
        " variable that held the channel first.",
        1,
    ),
    Word("direct", "d", "direct STEP", "the direct causes of a step; 'causes STEP' shows all"),
    Word(
        "search",
        "",
        "search [STATES]",
        "whether some schedule from here is stuck or ends in a panic: all are searched",
        "So many states at most, or 1000000. Ctrl-C ends it. 'follow' takes the steps that were found.",
        1,
    ),
    Word(
        "blame",
        "",
        "blame [STATES]",
        "the first step of the log after which no schedule ends well any more",
        "All schedules are searched, of so many states at most, or 1000000. Ctrl-C ends it.",
        1,
    ),
]
MOVING = [
    Word("step", "s", "step [N]", "N steps of the chosen goroutine", "'step G' and 'step G CASE' go to Rewind unchanged."),
    Word("next", "n", "next", "the chosen goroutine goes on to another line; calls are passed", most=0),
    Word("finish", "fin", "finish", "the chosen goroutine goes on until its function is left", most=0),
    Word("until", "u", "until LINE", "the chosen goroutine goes on to a line"),
    Word(
        "continue",
        "c",
        "continue",
        "all goroutines go on, round robin, to a breakpoint or the end",
        "Ctrl-C stops it where it stands.",
        0,
    ),
    Word("reverse-next", "rn", "reverse-next", "takes back the last line of the chosen goroutine, with all that depends on it", most=0),
    Word("reverse-continue", "rc", "reverse-continue", "takes steps back to a breakpoint or the start", most=0),
    Word(
        "back",
        "",
        "back LINE | back var X | back STEP ..",
        "take back a step with all that depends on it, after a preview",
        "LINE is where the chosen goroutine was last, X a variable of it. The forms with a goroutine, a channel or a step go to"
        " Rewind unchanged: 'back G#N', 'back go G', 'back send C K', 'back recv C K', 'back var G X'.",
    ),
    Word("follow", "", "follow", "take the steps of the schedule that 'search' found", most=0),
    Word("preview", "pv", "preview G#N | preview var X ..", "what 'back' would take back, which stays"),
    Word(
        "break",
        "b",
        "break [LINE | FUNCTION]",
        "set a breakpoint, or list them; on a line without a statement it is moved",
        "'b' before a step or a form of 'back' is 'back': b g0.1#3, b var x.",
    ),
    Word("clear", "", "clear LINE", "remove a breakpoint"),
]
SHELL = [
    Word("help", "h", "help [WORD]", "these words, one of them, or a code such as N3", most=1),
    Word(
        "save",
        "",
        "save FILE",
        "write the commands so far: to NAME.go with the source, as the page does; else as a script",
        "The page and the shell open both. A script is also for 'rewind FILE < SCRIPT'.",
    ),
    Word("load", "", "load FILE", "take the commands of a script, or those behind a source in one file"),
    Word("restart", "", "restart", "begin the program anew; breakpoints stay", most=0),
    Word("quit", "q", "quit", "end the session; so do exit and Ctrl-D"),
]
CORE = [
    Word("run", "r", "run N", "take up to N steps, of the goroutines round robin"),
    Word("undo", "", "undo", "take the last step back"),
    Word("redo", "", "redo", "take the steps again that were taken back last"),
    Word("order", "", "order ID ..", "put the steps of the log into another order"),
    Word("deps", "", "deps ID", "the steps that depend on a step"),
    Word("causes", "", "causes ID", "the steps that a step depends on"),
    Word("show", "", "show G", "a goroutine as Rewind tells it"),
    Word("chan", "", "chan C", "a channel as Rewind tells it"),
    Word("text", "", "text G", "what a goroutine printed"),
    Word("console", "", "console", "all that was printed"),
    Word("log", "", "log", "the steps with their kinds"),
    Word("free", "", "free N", "grant N steps to workers"),
]
# A word that is of use only where the program runs beside workers.
FOR_WORKERS = "free"
# What is said in place of a code, by the words that people use.
CODES = {"deadlock": "stuck"}
TERMS = {
    "panic": "a panic stops the program, as in Go: 'help SendOnClosed' and its like tell of one",
    "leak": "a leak is a goroutine that is blocked for ever when main has returned: 'why' tells where",
    "log": "the log has the steps that were taken and not taken back: 'log' and 'history' show it",
    "round-robin": "round robin is how 'run' and 'continue' choose: each goroutine that is ready takes a step in its turn",
}
GROUPS = {"Look": LOOKING, "Move": MOVING, "The commands of Rewind": CORE, "The shell": SHELL}
WORDS: list[Word] = [word for group in GROUPS.values() for word in group]
BY_NAME: dict[str, Word] = {word.name: word for word in WORDS}
ALIASES: dict[str, str] = {
    **{word.short: word.name for word in WORDS if word.short},
    "?": "help",
    "exit": "quit",
    "threads": "goroutines",
    "backtrace": "bt",
    "info": "goroutines",
    "cont": "continue",
}

# What is wrong where Rewind takes a line for no command.
HINTS = {
    "step": "step wants a goroutine, and may have the number of a case: step g0, step g0 2; or a number of steps: step 5",
    "run": "run wants a number from 1 to 1000000: run 1000; 'continue' goes on to a breakpoint or the end",
    "undo": "undo stands alone and takes the last step back; 'back g0.1#3' takes another one with all that depends on it",
    "redo": "redo stands alone, and takes the steps again that were taken back last",
    "back": "back wants a step, a line or a variable: back g0.1#3, back 12, back var x; or back go g0.1, back send g0/c1 2",
    "order": "order wants the names of all steps of the log in their new order: order g0#1 g0.1#1 g0#2",
    "deps": "deps wants a step: deps g0.1#3",
    "causes": "causes wants a step: causes g0.1#3",
    "break": "break wants a line or a function: break 12, break main",
    "clear": "clear wants the line of a breakpoint: clear 12",
    "search": "search may have the number of states to search, from 1 to 1000000000: search 20000",
    "blame": "blame may have the number of states to search, from 1 to 1000000000: blame 20000",
    "free": "free wants a number from 0 to 1000000: free 100",
    "show": "show wants a goroutine: show g0",
    "chan": "chan wants a channel: chan g0/c1; 'channels' lists them",
    "text": "text wants a goroutine: text g0; 'console' shows all that was printed",
    "console": "console stands alone and shows all that was printed",
    "log": "log stands alone and shows all steps; 'history 5' shows the last 5",
    "quit": "quit stands alone",
}


def word_of(text: str) -> Optional[str]:
    """The word that a text names: in full, by its abbreviation, or by a beginning that no other word has."""
    if text in BY_NAME:
        return text
    if text in ALIASES:
        return ALIASES[text]
    begun = [name for name in BY_NAME if name.startswith(text)]
    return begun[0] if len(begun) == 1 and len(text) > 1 else None


# What is no name of a goroutine, and is meant as one.
NUMBERED = re.compile(r"g[0-9.]+")
NAMES = "there is no goroutine %s: main is g0, the first that it starts is g0.1, and the second g0.2"
TARGETS = frozenset(("go", "send", "recv", "var"))


def meant_words(words: Sequence[str]) -> list[str]:
    """The words of a line with the first one in full, where it is a word; `b` before what `back` takes is `back`."""
    if words[0] == "b" and len(words) > 1 and ("#" in words[1] or words[1] in TARGETS):
        return ["back", *words[1:]]
    return [word_of(words[0]) or words[0], *words[1:]]


def too_many(name: str, words: Sequence[str]) -> str:
    """What is wrong where a word has more words behind it than it takes; else an empty text."""
    word = BY_NAME[name]
    if word.most is None or len(words) <= word.most:
        return ""
    if word.most == 0:
        return f"{name} stands alone: '{' '.join(words)[:LONGEST]}' is not taken"
    return f"{name} takes one word: '{' '.join(words[1:])[:LONGEST]}' is not taken. It is used so: {word.use}"


# Of a longer word no more is compared.
LONGEST = 40


def hint(line: str) -> str:
    """What is wrong with a line that is no command."""
    words = words_of(line)
    word = words[0] if words else ""
    if len(words) > 1 and word in HINTS and NUMBERED.fullmatch(words[1]) and not is_goroutine(words[1]):
        return NAMES % words[1][:LONGEST]
    if word in HINTS:
        return HINTS[word]
    if word.lower() in BY_NAME:
        return f"commands are written in small letters: {word.lower()}"
    near = difflib.get_close_matches(word[:LONGEST], [*BY_NAME, *ALIASES], 1)
    also = f"did you mean '{near[0]}'? " if near else ""
    return f"there is no command '{word[:LONGEST]}'; {also}'help' lists them"
