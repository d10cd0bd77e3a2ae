"""What older releases wrote is opened by this one: scripts of the shell, and files and links of the page (`tests/kept`)."""
from __future__ import annotations

import json
import shutil
import subprocess
import sys
from pathlib import Path

import pytest

from support.places import CLIENTS, TOP

KEPT = TOP / "tests" / "kept"
RELEASES = sorted(path.name for path in KEPT.iterdir() if path.is_dir())
SECONDS = 60
# Runs in node: opens a link and a file with the page's own modules, and writes what they hold.
OPENED = """
import { readFileSync } from "node:fs";
import { fromHash } from "TOP/page/src/control/linking.js";
import { fromFiles } from "TOP/page/src/control/filing.js";
const [link, file] = process.argv.slice(1).map((path) => readFileSync(path, "utf8"));
console.log(JSON.stringify([await fromHash(link.trim()), fromFiles([{ name: "deadlock.go", text: file }])]));
"""


def steps_after(words: list[str], given: str) -> list[str]:
    """The kept steps, as the shell answers a last `rewind log`."""
    command = [sys.executable, str(CLIENTS / "rewind-shell"), *words]
    done = subprocess.run(command, input=f"{given}log\nquit\n", capture_output=True, text=True, timeout=SECONDS, check=True)
    return [line.removeprefix("| ") for line in done.stdout.splitlines() if line.startswith("| ")]


def wanted(release: str) -> list[str]:
    lines = (KEPT / release / "deadlock.log").read_text(encoding="utf-8").splitlines()
    return [line.removeprefix("| ") for line in lines]


@pytest.fixture(params=RELEASES)
def release(request: pytest.FixtureRequest) -> Path:
    return KEPT / str(request.param)


def test_a_script_of_the_shell(release: Path, tmp_path: Path) -> None:
    source = tmp_path / "deadlock.go"
    source.write_text((release / "deadlock.go").read_text(encoding="utf-8").split("\n// commands")[0] + "\n", encoding="utf-8")
    assert steps_after(["--load", str(release / "deadlock.script"), str(source)], "") == wanted(release.name)


def test_a_file_of_the_page_in_the_shell(release: Path) -> None:
    assert steps_after([str(release / "deadlock.go")], "") == wanted(release.name)


@pytest.mark.skipif(not shutil.which("node"), reason="there is no node")
def test_a_link_and_a_file_in_the_page(release: Path, rewind: str) -> None:
    words = ["node", "--input-type=module", "--eval", OPENED.replace("TOP", str(TOP)), str(release / "deadlock.link"), str(release / "deadlock.go")]
    done = subprocess.run(words, capture_output=True, text=True, timeout=SECONDS, check=False)
    assert done.returncode == 0, done.stderr
    link, file = json.loads(done.stdout)
    commands = (release / "deadlock.script").read_text(encoding="utf-8").splitlines()
    assert link["commands"] == file["commands"] == commands
    assert link["source"] == file["source"] and (link["breaks"], link["chosen"], link["theme"]) == ([12], "g0.1#3", "dark")
    source = release / "deadlock.go"
    given = "".join(f"{command}\n" for command in [*commands, "log"])
    logged = subprocess.run([rewind, str(source)], input=given, capture_output=True, text=True, timeout=SECONDS, check=True).stdout
    assert [line for line in logged.splitlines() if line.startswith("| ")] == [f"| {step}" for step in wanted(release.name)]
