"""Links, pictures and paths: what a document points at is there."""
from __future__ import annotations

import os
import re
import xml.etree.ElementTree

from . import repository, shell
from .checks import Checks
from .markdown import SPAN, Page, page, spans
from .program import Scratch

ENDINGS = "antt c css go html js json md mjs py rt script expect sh svg toml txt".split()
ELSEWHERE = re.compile(r"(https?|mailto|ftp):")
# Documents whose paths in code font are all of this repository. In the others only those that begin with a folder of it are.
MAPS = ("README.md", "docs/THEOREMS.md", "docs/ARCHITECTURE.md", "docs/SESSIONS.md", "docs/COMMANDS.md", "page/README.md")
UNFINISHED = re.compile(r"\b(?:TODO|FIXME|TBD|XXX|[A-Z]{3,}(?:_[A-Z]+)+)\b")
PLACEHOLDER = re.compile(r"\b[A-Z]{1,}\b|[*~$<>@{}]|\.\.\.")


def target_of(document: Page, link: str) -> tuple[str, str]:
    """(path in the repository, anchor) of a link of a document."""
    path, _, anchor = link.partition("#")
    folder = os.path.dirname(document.name)
    return (os.path.normpath(os.path.join(folder, path)) if path else document.name), anchor


def check_link(checks: Checks, document: Page, line: int, link: str, is_picture: bool) -> None:
    place = f"{document.name}:{line}"
    if ELSEWHERE.match(link):
        address = re.fullmatch(r"(https?|ftp)://[\w.-]+\.\w+(:\d+)?(/\S*)?|mailto:\S+@\S+", link)
        checks.holds(place, address, f"no address: {link}")
        return
    path, anchor = target_of(document, link)
    known = path in repository.files() or path in repository.folders() or path == "."
    if not checks.holds(place, known, f"a link to {link}, which is not there"):
        return
    if is_picture:
        check_picture(checks, place, path)
    elif anchor and path.endswith(".md"):
        checks.holds(place, anchor in page(path).anchors, f"a link to {link}: no heading has this anchor")


def check_picture(checks: Checks, place: str, path: str) -> None:
    """A picture is a file that its form says it is."""
    if not path.endswith(".svg"):
        with open(repository.path_of(path), "rb") as file:
            start = file.read(8)
        known = start.startswith((b"\x89PNG", b"\xff\xd8\xff", b"GIF8", b"RIFF"))
        checks.holds(place, known, f"{path} is no picture")
        return
    try:
        root = xml.etree.ElementTree.fromstring(repository.read(path)).tag
    except xml.etree.ElementTree.ParseError as error:
        root = str(error)
    checks.holds(place, root.endswith("svg"), f"{path} is no picture: {root}")


def check_unused(checks: Checks) -> None:
    """Each picture of the documents is shown by one of them."""
    shown = set[str]()
    for name in repository.documents():
        document = page(name)
        shown.update(target_of(document, link)[0] for _, link, _ in document.links())
    for name in repository.files():
        if name.startswith("docs/pictures/"):
            checks.holds(name, name in shown, "no document shows this picture")


def is_path(text: str) -> bool:
    """Whether a part in code font looks like a path."""
    ending = text.rpartition(".")[2]
    parts = text.split("/")
    named = re.fullmatch(r"[\w][\w./-]*", text) and not re.match(r"g0", text)
    return bool(named) and (len(parts) > 1 and all(parts[:1]) or ("." in text[1:] and ending in ENDINGS))


def is_there(document: Page, text: str) -> bool:
    """Whether a path is one of the repository: as it is, below `crates` or the document's folder, or as the end of one."""
    bare = text.rstrip("/")
    known = set(repository.files()) | repository.folders()
    near = (bare, f"crates/{bare}", os.path.normpath(os.path.join(os.path.dirname(document.name), bare)))
    return any(it in known for it in near) or any(it.endswith("/" + bare) for it in known)


def is_promised(text: str) -> bool:
    """Whether a path that is made is one that the Makefile or a script of it makes."""
    top = text.split("/")[0]
    if top not in ("bin", "out") and not text.startswith("page/out"):
        return False
    scripts = [it for it in repository.files() if it == "Makefile" or it.endswith((".py", ".sh", ".mjs"))]
    return any(os.path.basename(text.rstrip("/")) in repository.read(it) for it in scripts)


def is_own(document: Page, text: str) -> bool:
    tops = {it.split("/")[0] for it in repository.folders()}
    return document.name in MAPS or text.split("/")[0] in tops


def check_words(checks: Checks, program: Scratch, document: Page) -> None:
    """Commands in code font: targets of `make`, options of the program, and the codes in lines of refusals."""
    options = set(re.findall(r"--[a-z]+", program.run(["--help"]).out))
    codes = set(re.findall(r"\b[SPC]\d+\b", program.run(["--explain", "?"]).err))
    for number, line in enumerate(document.prose):
        for text in spans(line):
            place, words = f"{document.name}:{number + 1}", text.split()
            if words[:1] == ["make"]:
                shell.check_make(checks, place, words)
            for option in re.findall(r"(?<= )--[a-z]+", text) if words[:1] == ["rewind"] else ():
                checks.holds(place, option in options, f"the program has no option {option}")
            refusal = re.match(r"rewind: ([A-Z]\d+)\b", text)
            if refusal:
                checks.holds(place, refusal[1] in codes, f"the program has no code {refusal[1]}")
        for word in UNFINISHED.findall(SPAN.sub("", line)):
            checks.fail(f"{document.name}:{number + 1}", f"the word {word} stands for something that is missing")


def check_paths(checks: Checks, document: Page) -> None:
    for number, line in enumerate(document.prose):
        for text in spans(line):
            word = text.split()[0] if text.split() else ""
            if is_path(word) and is_own(document, word) and not PLACEHOLDER.search(word):
                known = is_there(document, word) or is_promised(word)
                checks.holds(f"{document.name}:{number + 1}", known, f"there is no {word}")


def check_links(checks: Checks, document: Page) -> None:
    for line, link, is_picture in document.links():
        check_link(checks, document, line, link, is_picture)
