#!/usr/bin/env python3
"""Shows a deadlock, the step behind it, and the same program without it: the source, and each command with its reply.

    python3 -m tools.demo PROGRAM
"""
import argparse
import os
import subprocess
from collections.abc import Iterator

from tools import kit

STORY = f"{kit.ROOT}/tools/demo.txt"
SOURCE = f"{kit.ROOT}/crates/sessions/data/deadlock.go"
END = """
That was all. For a program of your own, type

    {program} FILE.go

and then such commands; 'quit' ends. The commands are in docs/COMMANDS.md, and the Go that it takes in docs/LANGUAGE.md."""


def lines_of(path: str) -> list[str]:
    with open(path, encoding="utf-8") as file:
        return file.read().splitlines()


def is_reply(line: str) -> bool:
    return line.startswith(("| ", "ok", "no ", "? "))


def answers(program: str, commands: list[str]) -> list[list[str]]:
    """The replies of the program, each a list of lines."""
    given = "".join(f"{it}\n" for it in commands)
    try:
        said = subprocess.run([program, SOURCE], input=given, stdout=subprocess.PIPE, text=True, check=True).stdout
    except (OSError, subprocess.CalledProcessError) as error:
        kit.stop(f"{program} does not run ({error})")
    found: list[list[str]] = []
    reply: list[str] = []
    for line in said.splitlines():
        reply.append(line)
        if not line.startswith("|"):
            found.append(reply)
            reply = []
    return found


def tell(program: str) -> Iterator[str]:
    """The story with the replies that the program gives now."""
    story = lines_of(STORY)
    replies = iter(answers(program, [line[2:] for line in story if line.startswith("> ")]))
    for line in story:
        if line == "SOURCE":
            yield from (f"{number:6}  {text}" for number, text in enumerate(lines_of(SOURCE), 1))
        elif line.startswith("> "):
            yield from [line, *next(replies, [])]
        elif not is_reply(line):
            yield line


def difference(program: str) -> str:
    """The first line that tools/demo.txt and the program give differently; an empty text where there is none."""
    wanted = [line for line in lines_of(STORY) if line.startswith("> ") or is_reply(line)]
    got = [line for line in tell(program) if line.startswith("> ") or is_reply(line)]
    differ = (f"tools/demo.txt has '{old}', the program gives '{new}'" for old, new in zip([*wanted, ""], [*got, ""]) if old != new)
    return next(differ, "")


def main() -> None:
    parser = argparse.ArgumentParser(description="Shows a deadlock, the step behind it, and the same program without it.")
    parser.add_argument("program")
    asked = parser.parse_args()
    if not os.access(asked.program, os.X_OK):
        kit.stop(f"there is no program {asked.program}")
    print("\n".join(tell(asked.program)))
    print(END.format(program=asked.program))


if __name__ == "__main__":
    main()
