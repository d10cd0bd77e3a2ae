"""Where people send bugs, and where the source is, as `words/addresses.txt` has it."""
from __future__ import annotations

from tools import kit
from tools.release.versions import read

NOBODY = "The Rewind authors"


def addresses() -> dict[str, str]:
    """Each address by its name; an empty text where none is set."""
    lines = (line for line in read(f"{kit.ROOT}/words/addresses.txt").splitlines() if not line.startswith("#"))
    return {name: address.strip() for name, found, address in (line.partition(":") for line in lines) if found}


def maintainer() -> str:
    """Who answers for a package: by an address of mail, if one is set."""
    bugs = addresses()["bugs"]
    return f"{NOBODY} <{bugs}>" if "@" in bugs else f"{NOBODY} <nobody@localhost>"
