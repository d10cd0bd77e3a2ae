"""Sources and pieces of Go in a document: the program accepts them, unless they have what the language leaves out."""
from __future__ import annotations

import re
import sys

from . import repository
from .checks import Checks
from .markdown import Block
from .program import Scratch


def is_go_file(block: Block) -> bool:
    bare = [line for line in block.lines if line.strip() and not line.strip().startswith("//")]
    return bool(bare) and bare[0].split()[0] == "package"


def is_ordinary_go(text: str) -> bool:
    """Whether a text imports packages, so that it is Go that the language leaves out."""
    return bool(re.search(r"^import\b", text, re.M))


def check_source(checks: Checks, program: Scratch, block: Block) -> None:
    """A whole file is accepted; one that imports packages is refused."""
    told = program.check(block.text)
    if is_ordinary_go(block.text):
        checks.holds(block.place(), told, "a file that imports packages, and is accepted")
    else:
        checks.same(block.place(), "--check of this source", "", told)


def readings(text: str) -> list[str]:
    """The files that a piece of Go may be part of: as functions beside `main`, and as the body of `main`."""
    body = "".join("\t" + line + "\n" for line in text.splitlines())
    return [f"package main\n\n{text}\nfunc main() {{\n}}\n", f"package main\n\nfunc main() {{\n{body}}}\n"]


def check_fragment(checks: Checks, program: Scratch, block: Block) -> None:
    told = [program.check(it) for it in readings(block.text)]
    checks.holds(block.place(), "" in told, f"a piece of Go that is refused: {' or '.join(told)}")


def check_python(checks: Checks, program: Scratch, block: Block) -> None:
    """A piece of Python over the library of the clients: each `print` gives what the remark beside it says."""
    name = program.write("piece.py", block.text)
    got = program.shell(f"PYTHONPATH={repository.path_of('clients')} {sys.executable} {name}").out
    told = re.findall(r"^print\(.*\)\s+# (.*)$", block.text, re.M)
    checks.same(block.place(), "what this piece of Python prints", "".join(it + "\n" for it in told), got)
