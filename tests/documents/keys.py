"""Keys of the page: PAGE lists those of the page's own table, in its order and its words."""
from __future__ import annotations

import re

from . import repository
from .checks import Checks
from .markdown import page

GUIDE, SHORTCUTS = "docs/PAGE.md", "page/src/control/shortcuts.js"
ROW = re.compile(r'\{ keys: \[(.*?)\],(?: shown: (?:phrase\()?"([^"]+)"\)?,)? says: phrase\("([^"]+)"\)')
IN_PICTURE = re.compile(r'^  \[phraseKey\("([^"]+)"\), phraseKey\("([^"]+)"\)\],$', re.M)


def keys_of_page() -> list[tuple[str, str]]:
    """(key, what it does) of each key, as the page's help shows it."""
    text = repository.read(SHORTCUTS)
    table = [(shown or re.findall(r'"([^"]+)"', keys)[0], says) for keys, shown, says in ROW.findall(text)]
    return table + IN_PICTURE.findall(text)


def check(checks: Checks) -> None:
    rows = page(GUIDE).rows_of("Key", "What it does")
    told = [(row.cells[0].strip("`"), row.cells[1]) for row in rows]
    checks.same(f"{GUIDE}:1", "keys", keys_of_page(), told)
