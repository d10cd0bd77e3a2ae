"""A release as a user has it: its two files in an empty folder, and no toolchain on the path.

`--release FOLDER` names the folder, as `make dist` or `make quick-dist` leaves it; without that these tests are left out. The sums are
right. The unpacked program needs no library and runs every example session. The shell, the hunt and the adapter start from where
they were unpacked. The page shows a deadlock in headless Chromium, from disk and from a static server. For the page Debian's
chromium and nodejs are installed where they are missing; where that cannot be done, it is skipped.
"""
from __future__ import annotations

import json
import re
import shutil
import struct
import subprocess
import sys
import tarfile
import zipfile
from collections.abc import Iterator
from pathlib import Path

import pytest

from support.places import SESSIONS, TOP

PATH = "/usr/bin:/bin"
PAGE = "rewind.html"
SECONDS = 300
# Runs in sh: each example of a folder, whose replies are compared with those beside it.
COMPARED = """
cd "$2" && for it in *.go; do
  "$1" "$it" <"${it%.go}.script" 2>&1 | cmp - "${it%.go}.expect"
done
"""
# Runs in node: opens the page, runs the story of the deadlock, and writes what the page says of its end.
LOOK = """
import { Browser } from "TOP/page/test/browser.mjs";
import { Hands } from "TOP/page/test/hands.mjs";
const browser = await Browser.open();
try {
  await browser.load(process.argv[2]);
  const hands = new Hands(browser);
  await hands.story("deadlock");
  await hands.key("r");
  console.log(await hands.text("#state"));
} finally {
  await browser.close();
}
"""


class Unpacked:
    """A folder with the files of a release, and the folder that its archive is unpacked to."""

    def __init__(self, folder: Path, work: Path) -> None:
        (archive,) = folder.glob("*-x86_64-linux.tar.xz")
        self.folder, self.work = folder, work
        for path in (archive, folder / PAGE):
            shutil.copy(path, work)
        with tarfile.open(archive) as tar:
            tar.extractall(work)
        self.top = work / archive.name[: -len(".tar.xz")]
        self.env = {"PATH": PATH, "HOME": str(work), "LANG": "C.UTF-8", "TMPDIR": str(work)}

    def path(self, name: str) -> str:
        return str(self.top / name)

    def said(self, words: list[str], given: str = "") -> str:
        """What a command writes to both streams."""
        done = subprocess.run(
            words, input=given, stdout=subprocess.PIPE, stderr=subprocess.STDOUT, cwd=self.work, env=self.env, text=True, errors="replace",
            timeout=SECONDS, check=False,
        )
        return done.stdout


@pytest.fixture(scope="module")
def release(pytestconfig: pytest.Config, tmp_path_factory: pytest.TempPathFactory) -> Unpacked:
    return Unpacked(Path(pytestconfig.getoption("--release")).resolve(), tmp_path_factory.mktemp("release"))


def wants_loader(program: str) -> bool:
    """Whether a program for 64 bits asks the system for a loader, as each does that needs a shared library."""
    content = Path(program).read_bytes()
    (start,) = struct.unpack_from("<Q", content, 32)
    size, count = struct.unpack_from("<HH", content, 54)
    return any(struct.unpack_from("<I", content, start + size * at)[0] == 3 for at in range(count))


def request_of(command: str, **arguments: str) -> str:
    text = json.dumps({"seq": 1, "type": "request", "command": command, "arguments": arguments})
    return f"Content-Length: {len(text)}\r\n\r\n{text}"


def test_the_sums_are_right(release: Unpacked) -> None:
    seen = release.said(["sh", "-c", 'cd "$1" && sha256sum --check --strict SHA256SUMS', "sh", str(release.folder)])
    listed = (release.folder / "SHA256SUMS").read_text(encoding="utf-8").split("\n")[:-1]
    assert seen.count(": OK") == len(listed) >= 2, seen
    named = {line.split()[1] for line in listed}
    assert named == {path.name for path in release.folder.iterdir()} - {"SHA256SUMS", "README.md"}


def test_no_toolchain_is_on_the_path() -> None:
    assert shutil.which("rt", path=PATH) is None


def test_the_program_needs_no_library(release: Unpacked) -> None:
    assert not wants_loader(release.path("bin/rewind"))


@pytest.mark.parametrize("source", sorted(SESSIONS.glob("*.go")), ids=lambda path: str(path.stem))
def test_an_example_session(source: Path, release: Unpacked) -> None:
    script = source.with_suffix(".script")
    given = script.read_bytes() if script.exists() else b""
    done = subprocess.run([release.path("bin/rewind"), str(source)], input=given, capture_output=True, env=release.env, check=False)
    assert done.stdout + done.stderr == source.with_suffix(".expect").read_bytes()


def test_the_examples_give_the_replies_beside_them(release: Unpacked) -> None:
    assert release.said(["sh", "-c", COMPARED, "sh", release.path("bin/rewind"), release.path("examples")]) == ""


def test_the_shell_says_why_the_program_is_stuck(release: Unpacked) -> None:
    seen = release.said([release.path("bin/rewind-shell"), release.path("examples/deadlock.go")], "run 100\nwhy\nquit\n")
    assert "g0.1 waits for g0.2" in seen, seen


def test_the_hunt_finds_a_schedule_that_ends_badly(release: Unpacked) -> None:
    seen = release.said([release.path("bin/rewind-hunt"), "--seed", "1", release.path("examples/deadlock.go")])
    assert "deadlock: no goroutine can go on" in seen, seen


def test_the_adapter_answers_an_editor(release: Unpacked) -> None:
    seen = release.said([release.path("bin/rewind-dap")], request_of("initialize", adapterID="rewind"))
    assert re.search('"supportsStepBack": ?true', seen), seen


def test_the_extension_has_the_program(release: Unpacked) -> None:
    with zipfile.ZipFile(release.path("rewind.vsix")) as package:
        assert package.read("extension/bin/rewind") == Path(release.path("bin/rewind")).read_bytes()


@pytest.fixture(scope="module")
def look(release: Unpacked) -> list[str]:
    """The command that opens a page and says what it shows of the deadlock."""
    ran = subprocess.run([TOP / "page" / "needs.sh", "chromium", "nodejs"], capture_output=True, text=True, check=False)
    if ran.returncode:
        pytest.skip(ran.stderr.strip().splitlines()[-1])
    script = release.work / "look.mjs"
    script.write_text(LOOK.replace("TOP", str(TOP)), encoding="utf-8")
    return ["node", str(script)]


@pytest.fixture(scope="module")
def address(release: Unpacked) -> Iterator[str]:
    """The address of a static server of the files."""
    words = [sys.executable, "-u", "-m", "http.server", "--bind", "127.0.0.1", "0"]
    with subprocess.Popen(words, stdout=subprocess.PIPE, stderr=subprocess.DEVNULL, text=True, cwd=release.work) as child:
        assert child.stdout
        found = re.search(r"http://[\d.:]+/", child.stdout.readline())
        assert found
        yield found[0]
        child.kill()


def test_the_page_from_disk(release: Unpacked, look: list[str]) -> None:
    seen = release.said([*look, f"file://{release.work}/{PAGE}"])
    assert seen.startswith("Deadlock: "), seen


def test_the_page_from_a_server(release: Unpacked, look: list[str], address: str) -> None:
    seen = release.said([*look, f"{address}{PAGE}"])
    assert seen.startswith("Deadlock: "), seen
