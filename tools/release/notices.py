"""The licenses of what is linked into the program: the toolchain's crates, and in the archive the system's C library."""
from __future__ import annotations

import os
import re

from tools import kit

C_LIBRARY = "/usr/share/doc/libc6-dev/copyright"
# Of a crate with several licenses, the first of these names is taken.
TERMS = ("LICENSE-MIT", "LICENSE", "LICENSE-APACHE")
HEAD = "What is linked into bin/rewind, beside Rewind itself."
OF_PAGE = "What is linked into the page's program, beside Rewind itself."
LIBRARY = """The GNU C Library, and parts of GCC's runtime library, which its exception lets programs of any license hold.
Rewind's sources are free, so 'make dist' links the program with another C library."""


def read(path: str) -> str:
    with open(path, encoding="utf-8") as file:
        return file.read().strip()


def crates(folder: str) -> list[str]:
    """The names of the toolchain's crates that the program is made of."""
    library = kit.library(folder)
    crate = library.Crate(f"{kit.ROOT}/crates/rewind_cli", kit.ROOT, {}, ())
    words = library.kit_sources(name for it in [crate, *crate.below()] for name in it.of_kit)
    found = [re.search(r"/(\w+)/src/lib\.rt$", word) for word in words]
    return sorted(it[1] for it in found if it)


def license_of(folder: str, name: str) -> str | None:
    """The text of a crate's license, where the toolchain has one."""
    found = [path for path in (f"{folder}/rattle/{name}/{it}" for it in TERMS) if os.path.exists(path)]
    return read(found[0]) if found else None


def of_crates(folder: str) -> list[str]:
    """The licenses of the crates, and which crates have none."""
    told = {name: license_of(folder, name) for name in crates(folder)}
    without = ", ".join(name for name, text in told.items() if not text)
    texts = [f"{name}\n\n{text}" for name, text in told.items() if text]
    return [*texts, f"The toolchain has no text of a license for its crates {without}."]


def joined(parts: list[str]) -> str:
    return f"\n\n{'-' * 78}\n\n".join(parts) + "\n"


def of_program(folder: str) -> str:
    """The text for an archive of the program."""
    if not os.path.exists(C_LIBRARY):
        kit.stop(f"there is no {C_LIBRARY}, which the archive must hold: install Debian's package libc6-dev")
    return joined([HEAD, *of_crates(folder), LIBRARY, read(C_LIBRARY)])


def of_page(folder: str, editor: str) -> str:
    """The text for the page, with that of Rewind and of the page's editor."""
    return joined([read(f"{kit.ROOT}/LICENSE"), editor.strip(), OF_PAGE, *of_crates(folder)])
