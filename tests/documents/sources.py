"""What the crates define: functions, types and modules of the code, and the names of the definitions."""
from __future__ import annotations

import functools
import re
from typing import Optional

from . import repository

ITEM = re.compile(r"^(?:(pub)(\([a-z]+\))? )?(?:const |unsafe )?(fn|struct|enum|trait|type|const|mod) (\w+)")
METHOD = re.compile(r"^ {4}(?:(pub)(\([a-z]+\))? )?(?:const |unsafe )?fn (\w+)")
VARIANT = re.compile(r"^ {4}(?:pub(?:\([a-z]+\))? )?(\w+)(?=[ ,({:=]|$)")
DEFINED = re.compile(r"^ *(?:unfoldable )?(?:pub )?(?:(?:record|data|mod) )?([^\s:(){}-][^\s:(){}]*)", re.M)
TYPES = ("struct", "enum", "trait", "type")


class Function:
    """A function: its owner is the type or trait of which it is a method, or ''."""

    def __init__(self, name: str, owner: str, reach: str, path: str) -> None:
        self.name, self.owner, self.reach, self.path = name, owner, reach, path


def owner_of(header: str) -> str:
    """The type of an `impl` header."""
    text = header
    while re.search(r"<[^<>]*>", text.replace("->", "")):
        text = re.sub(r"<[^<>]*>", "", text.replace("->", ""))
    text = re.split(r"\bwhere\b|\{", re.sub(r"^\s*impl\b", "", text))[0]
    name = text.split(" for ")[-1].strip()
    words: list[str] = re.findall(r"\w+", name)
    return words[-1] if words else ""


class Crate:
    """The items of one crate, by name."""

    def __init__(self, name: str) -> None:
        self.name = name
        self.functions: list[Function] = []
        self.types: dict[str, str] = {}
        self.constants: dict[str, str] = {}
        self.modules: dict[str, bool] = {}
        self.parts, self.exported, self.imported, self.definitions = set[str](), set[str](), set[str](), set[str]()
        folder = f"crates/{name}/"
        for path in repository.files():
            if path.startswith(folder + "src/") and path.endswith(".rt"):
                self.read_code(path)
            elif path.startswith((folder + "specs/", folder + "proofs/")) and path.endswith(".antt"):
                self.read_definitions(path)

    def read_code(self, path: str) -> None:
        text = repository.read(path)
        for names in re.findall(r"^pub use [\w:]*?(?:\{([^}]*)\}|(\w+));", text, re.M):
            self.exported.update(re.findall(r"\w+", names[0] or names[1]))
        for names in re.findall(r"^(?:pub )?use ([^;]*);", text, re.M):
            self.imported.update(re.findall(r"\w+", names))
        self.modules.setdefault(path.rpartition("/")[2][:-3], False)
        owner, public_owner, header = "", False, ""
        for line in text.splitlines():
            header = f"{header} {line}" if header else (line if re.match(r"impl\b", line) else "")
            if header and "{" in line:
                owner, public_owner, header = owner_of(header), " for " in header, ""
            item = ITEM.match(line)
            if item:
                owner, public_owner = self.add_item(item, path)
            elif line == "}":
                owner = ""
            elif owner:
                self.add_part(line, owner, public_owner, path)

    def add_item(self, item: re.Match[str], path: str) -> tuple[str, bool]:
        """Notes an item of a module. Gives the owner of what follows in braces, and whether all of that is as public as it."""
        public, narrow, sort, name = item.groups()
        reach = "" if not public else narrow or "pub"
        if sort == "fn":
            self.functions.append(Function(name, "", reach, path))
            return "", False
        if sort == "mod":
            self.modules[name] = reach == "pub"
            return "", False
        if sort == "const":
            self.constants[name] = reach
            return "", False
        self.types[name] = reach
        return name, sort in ("trait", "enum")

    def add_part(self, line: str, owner: str, public_owner: bool, path: str) -> None:
        method, part = METHOD.match(line), VARIANT.match(line)
        if method:
            reach = "" if not method[1] else method[2] or "pub"
            self.functions.append(Function(method[3], owner, "pub" if public_owner else reach, path))
        elif part:
            self.parts.add(part[1])

    def read_definitions(self, path: str) -> None:
        self.definitions.add(path.rpartition("/")[2][:-5])
        self.definitions.update(DEFINED.findall(repository.read(path)))

    def is_reached(self, function: Function) -> bool:
        """Whether a public function can be named by other crates: its module is public, or it is exported."""
        modules = function.path.split("/src/")[1][:-3].split("/")
        modules = [it for it in modules if it not in ("lib", "main", "mod")]
        return function.name in self.exported or all(self.modules.get(it, False) for it in modules)

    def is_public(self, function: Function) -> bool:
        """Whether other crates can call a function."""
        if function.reach != "pub":
            return False
        if function.owner:
            return function.owner not in self.types or self.types[function.owner] == "pub"
        return self.is_reached(function)

    def functions_of(self, name: str, owner: Optional[str] = None) -> list[Function]:
        return [it for it in self.functions if it.name == name and owner in (None, it.owner)]

    def has(self, name: str) -> bool:
        """Whether a word names anything of the crate."""
        known = {*self.types, *self.constants, *self.modules, *self.parts, *self.exported, *self.definitions}
        return name in known or bool(self.functions_of(name))


@functools.lru_cache(maxsize=None)
def crate(name: str) -> Crate:
    return Crate(name)
