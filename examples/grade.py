"""A table of what `rewind-hunt --json` found in the submissions of a class: a row for each line of standard input."""
from __future__ import annotations

import json
import os
import sys
from typing import Any

STATUS = {0: "good", 1: "bad", 2: "refused", 3: "several outputs"}


def remark(record: dict[str, Any]) -> str:
    """What is to be said of a submission, in a line."""
    if "error" in record:
        return str(record["error"])
    if record["found"]:
        return str(record["found"][0]["message"])
    outputs = ["; ".join(it["printed"]) or "nothing" for it in record["ends"]]
    return "prints " + " | ".join(outputs)


def main() -> int:
    records = [json.loads(line) for line in sys.stdin]
    rows = [(os.path.basename(it["file"]), STATUS[it["status"]], remark(it)) for it in records]
    heads = ("file", "result", "what")
    widths = [max(len(row[column]) for row in [heads, *rows]) for column in range(2)]
    for row in [heads, *sorted(rows)]:
        print("  ".join([*(text.ljust(width) for text, width in zip(row, widths)), row[2]]).rstrip()[:200])
    good = sum(it["status"] == 0 for it in records)
    print(f"{good} of {len(records)} are good")
    return 0


if __name__ == "__main__":
    sys.exit(main())
