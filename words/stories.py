"""The stories of docs/SESSIONS.md, by stories.txt: what is told between the commands of an example session.

A story there is a line `== NAME: TITLE`, and blocks with a blank line between them: what its picture shows (`picture: ..`), the
place of its source (`source`), commands (`> step g0`), and paragraphs. Source and replies are those of the session.
"""
import dataclasses
import os
import re
from collections.abc import Iterator

ROOT = os.path.dirname(os.path.dirname(os.path.abspath(__file__)))
SESSIONS = f"{ROOT}/crates/sessions/data"
# A reply ends with such a line.
LAST = re.compile(r"(ok|no)\b")
# So many paragraphs before a command are what the page tells of it.
TOLD = 2


def read(path: str) -> str:
    with open(path, encoding="utf-8") as file:
        return file.read()


@dataclasses.dataclass(frozen=True)
class Block:
    """A paragraph, the commands of one block, or the place of the source: then it has neither."""

    paragraph: str = ""
    commands: tuple[str, ...] = ()


@dataclasses.dataclass(frozen=True)
class Story:
    """A session with what is told of it."""

    name: str
    title: str
    picture: str
    blocks: tuple[Block, ...]

    def file(self, ending: str) -> str:
        return read(f"{SESSIONS}/{self.name}.{ending}")


def block_of(lines: list[str]) -> Block:
    if lines == ["source"]:
        return Block()
    if lines[0].startswith("> "):
        return Block(commands=tuple(line.removeprefix("> ") for line in lines))
    return Block(paragraph=" ".join(lines))


def story_of(text: str) -> Story:
    head, picture, *blocks = text.strip().split("\n\n")
    name, _, title = head.partition(": ")
    return Story(name, title, picture.removeprefix("picture: "), tuple(block_of(it.splitlines()) for it in blocks))


def stories() -> list[Story]:
    text = read(f"{os.path.dirname(os.path.abspath(__file__))}/stories.txt")
    return [story_of(it) for it in re.split(r"^== ", text, flags=re.M)[1:]]


def replies(story: Story) -> Iterator[str]:
    """The lines of each reply of a session. Those of the last one have what the program says behind it."""
    lines: list[str] = []
    expected = story.file("expect").splitlines(keepends=True)
    left = sum(1 for line in expected if LAST.match(line))
    for line in expected:
        lines.append(line)
        if LAST.match(line) and left > 1:
            left -= 1
            yield "".join(lines)
            lines = []
    yield "".join(lines)


def section(story: Story) -> str:
    """The section of a story in docs/SESSIONS.md."""
    parts = [f"## {story.title}", f"![{story.picture}](pictures/{story.name}.svg)"]
    answered = replies(story)
    for block in story.blocks:
        if block.commands:
            parts.append("```\n" + "".join(f"> {it}\n{next(answered)}" for it in block.commands) + "```")
        else:
            parts.append(block.paragraph or f"```\n{story.file('go')}```")
    return "\n\n".join(parts) + "\n"


def sections() -> str:
    return "\n" + "\n".join(map(section, stories())) + "\n"


def bare(paragraph: str) -> str:
    """A paragraph without marks."""
    return re.sub(r"\*([^*]+)\*", r"\1", paragraph.replace("`", ""))


def told(story: Story) -> Iterator[dict[str, str]]:
    """The commands of a story, each with the text that leads to it."""
    said: list[str] = []
    for block in story.blocks[story.blocks.index(Block()) + 1:]:
        if not block.commands:
            said.append(bare(block.paragraph))
        for command in block.commands:
            yield {"text": " ".join(said[-TOLD:]), "command": command}
            said = []


def for_page() -> dict[str, dict[str, object]]:
    """What the page tells of each story."""
    return {it.name: {"title": it.title, "told": list(told(it))} for it in stories()}
