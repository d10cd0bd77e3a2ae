"""Lines for a shell. A call of the program is run, and its output compared where the document prints it. Of `make`
the targets have to be there, and of other known commands the files of the repository that they name. A command of
no known name is a failure."""
from __future__ import annotations

import re
import shlex

from . import repository
from .checks import Checks
from .markdown import Block
from .program import PROMPT, Scratch

PROGRAMS = {"rewind", "bin/rewind", "bin/rewind-quick", "./bin/rewind", "./bin/rewind-quick"}
# Commands that ask for lines, with the prompt of each.
PROMPTS = {it: PROMPT for it in PROGRAMS}
# Clients of the program, which are run too, and the prompt of the one that asks for lines.
HUNT, ASKING = "clients/rewind-hunt", "clients/rewind-shell"
ASKED = re.compile(r"^\(rewind g[0-9.]*\) ")
# Commands that are run, with the program among them or alone.
RUN = {"cat", "printf", "echo", "grep", "head", "tail", "diff", "wc", "sort", HUNT, ASKING}
# What differs from run to run.
TIMING = re.compile(r"in [0-9]+\.[0-9] seconds$")
# Commands that change the machine or want a person: only the files that they name are looked for.
NAMED = set(
    "apt apt-get bin/rewind-carry cd chmod code cp curl docker emacs export git hx install ln ls man mkdir mv nvim parallel python3 rlwrap rm rt "
    "sha256sum sudo tar tee unzip wget xdg-open".split()
)
# Folders of the archive of a release, and where their files stand in the repository.
ARCHIVE = {"bin": "clients", "examples": repository.SESSIONS}
# What the words of a form of the command line stand for.
EXAMPLE = f"{repository.SESSIONS}/deadlock.go"
STANDING = {"FILE": EXAMPLE, "N": "2", "CODE": "N1", "SCRIPT": "-"}
# How forms may end that are no refusal: a search may find a schedule that ends badly, or meet its limit.
ANSWERS = {"--search": {0, 4, 5}, "--blame": {0, 5}}
# A line of output that stands for any lines, and a remark beside a line.
ANY_LINES = ("..", "...")
REMARK = re.compile(r"\s{2,}(<-|←|#) .*$")


def without_remark(line: str) -> str:
    """A command line without what explains it: words behind two blanks or more, or behind `#`."""
    return re.split(r"\s{2,}(?=\S)|\s+#\s", line.strip())[0]


def command_of(words: list[str]) -> list[str]:
    """The words of a command without the variables that are set before it."""
    while words and re.match(r"[A-Z_]+=", words[0]):
        words = words[1:]
    return words


def parsed(line: str) -> list[list[str]]:
    """The simple commands of a line, as lists of words."""
    lexer = shlex.shlex(line, posix=True, punctuation_chars="|&;<>")
    lexer.whitespace_split = True
    commands: list[list[str]] = [[]]
    for word in lexer:
        if word in ("|", "&&", "||", ";", "&"):
            commands.append([])
        else:
            commands[-1].append(word)
    return [it for it in map(command_of, commands) if it]


def is_file(name: str) -> bool:
    """Whether a path is one of the repository."""
    bare = re.sub(r"^(REPOSITORY/|\./)", "", name)
    return bare in repository.files() or bare.rstrip("/") in repository.folders()


def is_of_archive(name: str) -> bool:
    """Whether a path is one of the archive of a release, which has the clients and example sessions in folders of its own."""
    folder, _, file = name.rpartition("/")
    return folder in ARCHIVE and is_file(f"{ARCHIVE[folder]}/{file}")


def is_known(name: str) -> bool:
    return name in PROGRAMS | RUN | NAMED | {"make"} or ("/" in name and (is_file(name) or is_of_archive(name)))


def first_word(line: str) -> str:
    words = command_of(without_remark(line).split())
    return words[0] if words else ""


def is_commands(block: Block) -> bool:
    """Whether the first line that is no remark is a command of a known name."""
    lines = [line for line in block.lines if line.strip() and not line.lstrip().startswith("#")]
    return bool(lines) and is_known(first_word(lines[0]))


def check_make(checks: Checks, place: str, words: list[str]) -> None:
    """Whether the Makefile has the targets and variables of a call of `make`."""
    text = repository.read("Makefile")
    for word in words[1:]:
        variable, is_set, _ = word.partition("=")
        if is_set:
            checks.holds(place, re.search(rf"\b{re.escape(variable)}\b", text), f"the Makefile has no variable {variable}")
        elif not word.startswith("-"):
            checks.holds(place, word in repository.make_targets(), f"the Makefile has no target {word}")


def check_files(checks: Checks, place: str, words: list[str]) -> None:
    """Whether the paths among the words are there, if they begin with a folder of the repository or with REPOSITORY."""
    tops = {it.split("/")[0] for it in repository.folders()}
    for name in re.findall(r"[\w./-]+", " ".join(words)):
        bare = re.sub(r"^(REPOSITORY/|\./)", "", name)
        inside = bare != name or "/" in name
        if inside and bare.split("/")[0] in tops and not repository.is_made(bare):
            checks.holds(place, is_file(bare) or is_of_archive(bare), f"there is no {bare}")


def alternatives(words: list[str]) -> list[list[str]]:
    """A command whose words are joined by commas stands for one command each: `rewind --help, --version`."""
    if not any(it.endswith(",") for it in words):
        return [words]
    return [[words[0], it.rstrip(",")] for it in words[1:]]


def stood_for(program: Scratch, word: str) -> str:
    """What a word in a form of the command line stands for; a source that is not there stands for an example."""
    absent = word.endswith(".go") and word not in program.shown and not is_file(word)
    return EXAMPLE if absent else STANDING.get(word, word)


def check_form(checks: Checks, program: Scratch, place: str, words: list[str]) -> None:
    """Whether the program takes a command line of this form."""
    for form in alternatives(words):
        given = form[1: form.index("<")] if "<" in form else form[1:]
        ran = program.run([stood_for(program, it) for it in given])
        answers = next((ANSWERS[it] for it in given if it in ANSWERS), {0})
        checks.holds(place, ran.status in answers, f"{' '.join(form)}: status {ran.status}: {ran.err.strip()}")


def check_options(checks: Checks, program: Scratch, block: Block) -> None:
    """Whether a block that lists the forms of the command line, `--help` among them, has each option that `--help` tells."""
    lines = [line for line in block.lines if first_word(line) in PROGRAMS]
    if not any("--help" in line for line in lines):
        return
    told = set(re.findall(r"--[a-z]+", re.split(r"^Commands", program.run(["--help"]).out, flags=re.M)[0]))
    listed = {option for line in lines for option in re.findall(r"--[a-z]+", without_remark(line))}
    checks.same_sets(block.place(), "the options of a command line", told, listed)


def check_command(checks: Checks, program: Scratch, place: str, words: list[str]) -> None:
    """One simple command whose output is not compared."""
    if words[0] == "make":
        check_make(checks, place, words)
    elif words[0] in PROGRAMS:
        check_form(checks, program, place, words)
    elif not checks.holds(place, is_known(words[0]), f"a command of a name that no check knows: {words[0]}"):
        return
    check_files(checks, place, words)


def check_commands(checks: Checks, program: Scratch, block: Block) -> None:
    """A block of command lines without output."""
    for number, line in enumerate(block.lines):
        bare = without_remark(line)
        if bare and not bare.startswith("#"):
            for words in parsed(bare):
                check_command(checks, program, block.place(number), words)
    check_options(checks, program, block)


def asked(block: Block) -> list[tuple[int, str, list[str]]]:
    """(number of its line, command, output) of each command of a transcript."""
    found: list[tuple[int, str, list[str]]] = []
    for number, line in enumerate(block.lines):
        if line.startswith("$ "):
            found.append((number, REMARK.sub("", line[2:]), []))
        elif found:
            found[-1][2].append(line)
    return found


def filled(printed: list[str], got: list[str]) -> list[tuple[int, str]]:
    """(number, line) of each printed line; one of points stands for the lines of the output up to the next one printed."""
    found, at = [], 0
    for number, line in enumerate(printed):
        follower = printed[number + 1] if number + 1 < len(printed) else None
        if line.strip() not in ANY_LINES:
            found.append((number, line))
            at = got.index(line, at) + 1 if line in got[at:] else at
            continue
        end = got.index(follower, at) if follower in got[at:] else len(got) if follower is None else at
        found += [(number, it) for it in got[at:end]]
        at = end
    return found


def output_of(program: Scratch, line: str, printed: list[str]) -> list[str]:
    """The lines that a terminal shows for a line, with what is typed at the prompts that are printed."""
    words = command_of(shlex.split(line))
    if words[0] == ASKING:
        return asked_by_the_shell(program, line, printed)
    prompt = PROMPTS.get(words[0], "")
    typed = [it[len(prompt) :] for it in printed if it.startswith(prompt)] if prompt else []
    if not typed:
        return program.shell(line).out.splitlines()
    words[0] = "./rewind" if words[0] in PROGRAMS else words[0]
    got = program.at_terminal(words, typed, prompt).out.rstrip("\n").split("\n")
    return got[:-1] if got[-1] == prompt else got


def asked_by_the_shell(program: Scratch, line: str, printed: list[str]) -> list[str]:
    """What the shell of the clients shows at its prompts: it echoes what it reads from a pipe."""
    asked = [it for it in printed if ASKED.match(it)]
    typed = [ASKED.sub("", it) for it in asked]
    prompts = [it[: len(it) - len(text)] for it, text in zip(asked, typed)]
    got = program.shell("printf '%s\\n' " + " ".join(map(shlex.quote, typed)) + " | " + line).out.splitlines()
    return [prompts.pop(0) + it[2:] if it.startswith("> ") and prompts else it for it in got]


def compare_output(checks: Checks, program: Scratch, block: Block, number: int, line: str, printed: list[str]) -> None:
    """Whether a line of a transcript gives the output that is printed below it."""
    got = [TIMING.sub("in N seconds", it) for it in output_of(program, line, printed)]
    wanted = filled([TIMING.sub("in N seconds", it) for it in printed], got)
    numbers = [it for it, _ in wanted] + [len(printed)]
    checks.same_lines(lambda n: block.place(number + 1 + numbers[n]), f"output of {line!r}", [it for _, it in wanted], got)


def may_run(commands: list[list[str]]) -> bool:
    """Whether a line is run: it calls the program or what only reads, and writes no file."""
    names = {words[0] for words in commands}
    return names <= PROGRAMS | RUN | set(PROMPTS) and not any(">" in word for words in commands for word in words)


def check_line(checks: Checks, program: Scratch, block: Block, number: int, line: str, output: list[str]) -> None:
    """A line of a transcript, with its output."""
    commands = parsed(line)
    shows = len(commands) == 1 and commands[0][0] == "cat" and len(commands[0]) == 2
    if shows and not is_file(commands[0][1]):
        program.shown.add(program.write(commands[0][1], "".join(it + "\n" for it in output)))
    elif may_run(commands):
        compare_output(checks, program, block, number, line, [REMARK.sub("", it) for it in output])
    else:
        for words in commands:
            check_command(checks, program, block.place(number), words)
        checks.holds(block.place(number), not output, f"the output of {line!r} is not compared")


def check_transcript(checks: Checks, program: Scratch, block: Block) -> None:
    """A block of lines `$ COMMAND`, each with its output."""
    for number, line, output in asked(block):
        while output and not output[-1].strip():
            output.pop()
        check_line(checks, program, block, number, line, output)
