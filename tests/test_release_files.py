"""What a release has beside the page and the archive for x86-64: the program for arm64, under qemu, and for Node; packages of Debian,
wheels, the documents as a book, and the bill of materials. `--release FOLDER` names the folder; a file that it lacks is skipped.
"""
from __future__ import annotations

import json
import re
import shutil
import subprocess
import sys
import tarfile
import time
from collections.abc import Callable
from pathlib import Path

import pytest

from support.places import EXAMPLES, SESSIONS

QEMU = "qemu-aarch64-static"
SECONDS = 300
COUNTING = "package main\n\nfunc main() {\n\tfor i := 0; i < 3000; i++ {\n\t}\n}\n"
Find = Callable[[str], Path]
SOURCES = sorted(SESSIONS.glob("*.go"))


@pytest.fixture(scope="module")
def find(pytestconfig: pytest.Config) -> Find:
    """Finds the one file of the release by a pattern."""
    folder = Path(pytestconfig.getoption("--release")).resolve()

    def one(pattern: str) -> Path:
        found = sorted(folder.glob(pattern))
        if not found:
            pytest.skip(f"the release has no {pattern}")
        return found[0]

    return one


def needs(command: str) -> str:
    if not shutil.which(command):
        pytest.skip(f"there is no {command} here")
    return command


@pytest.fixture(scope="module", params=["arm64", "node"])
def machine(request: pytest.FixtureRequest, find: Find, tmp_path_factory: pytest.TempPathFactory) -> list[str]:
    """The words by which the program for another machine is started here."""
    if request.param == "node":
        return [needs("node"), str(find("rewind.mjs"))]
    work = tmp_path_factory.mktemp("arm64")
    with tarfile.open(find("*-arm64-linux.tar.xz")) as archive:
        archive.extractall(work)
    (program,) = work.glob("*/bin/rewind")
    return [needs(QEMU), str(program)]


def said(words: list[str], given: bytes = b"") -> subprocess.CompletedProcess[bytes]:
    return subprocess.run(words, input=given, capture_output=True, timeout=SECONDS, check=False)


@pytest.mark.parametrize("source", SOURCES, ids=lambda path: str(path.stem))
def test_an_example_session(source: Path, machine: list[str]) -> None:
    script = source.with_suffix(".script")
    done = said([*machine, str(source)], script.read_bytes() if script.exists() else b"")
    assert done.stdout + done.stderr == source.with_suffix(".expect").read_bytes()


@pytest.mark.parametrize(
    "words",
    [
        ["--version"], ["--help"], ["--explain", "C7"], ["--explain", "nothing"], ["--workers", "99", "x.go"], ["--after", "x"], [],
        ["there_is_none.go"], ["--search", str(EXAMPLES / "lock_order.go")], ["--search", str(EXAMPLES / "leak.go"), "--states", "5"],
        ["--check", str(EXAMPLES / "lock_order.go")], ["--blame", str(EXAMPLES / "lock_order.go"), "--after", "-"],
    ],
    ids=" ".join,
)  # fmt: skip
def test_what_the_program_for_x86_says(words: list[str], machine: list[str], rewind: str) -> None:
    """Both are of the same module, so they say the same and end alike."""
    here, there = said([rewind, *words], b"run 9\n"), said([*machine, *words], b"run 9\n")
    version = re.compile(rb"^rewind \S+.*")
    assert version.sub(b"", here.stdout) == version.sub(b"", there.stdout)
    assert (here.stderr, here.returncode) == (there.stderr, there.returncode)


def test_a_client_is_answered_by_lines_of_json(machine: list[str], rewind: str) -> None:
    given = b"run 20\nabout 1 9\nundo\nabout g0#1\nnothing\n"
    words = ["--json", str(EXAMPLES / "lock_order.go")]
    assert said([*machine, *words], given).stdout == said([rewind, *words], given).stdout


def test_a_session_waits_for_the_next_command(machine: list[str]) -> None:
    words = [*machine, str(EXAMPLES / "lock_order.go")]
    with subprocess.Popen(words, stdin=subprocess.PIPE, stdout=subprocess.PIPE, text=True) as child:
        assert child.stdin and child.stdout
        for command in ("step g0", "undo"):
            child.stdin.write(f"{command}\n")
            child.stdin.flush()
            assert child.stdout.readline().startswith("ok")
        child.stdin.close()
        assert child.wait(SECONDS) == 0


def test_workers(machine: list[str], tmp_path: Path) -> None:
    """Workers take the steps that are granted, where the machine has threads; for Node none can be started."""
    source = tmp_path / "counting.go"
    source.write_text(COUNTING, encoding="utf-8")
    words = [*machine, "--workers", "2", str(source)]
    if machine[0] == "node":
        assert said(words, b"quit\n").returncode != 0
        return
    with subprocess.Popen(words, stdin=subprocess.PIPE, stdout=subprocess.PIPE, text=True) as child:
        assert child.stdin and child.stdout
        asked, told = "free 1000\n", ""
        for _ in range(SECONDS * 10):
            child.stdin.write(f"{asked}log\n")
            child.stdin.flush()
            asked = ""
            while not (told := child.stdout.readline()).startswith("ok ") or told == "ok\n":
                pass
            if told == "ok 1000\n":
                break
            time.sleep(0.1)
        child.stdin.close()
        assert (child.wait(SECONDS), told) == (0, "ok 1000\n")


def unpacked(package: Path, folder: Path) -> Path:
    subprocess.run([needs("dpkg-deb"), "--extract", str(package), str(folder)], check=True)
    return folder


@pytest.mark.parametrize("kind", ["amd64", "arm64"])
def test_a_package_of_debian(kind: str, find: Find, tmp_path: Path) -> None:
    package = find(f"rewind_*_{kind}.deb")
    top = unpacked(package, tmp_path)
    runs = [str(top / "usr/bin/rewind")]
    words = [needs(QEMU), *runs] if kind == "arm64" else runs
    assert said([*words, "--check", str(EXAMPLES / "leak.go")]).returncode == 0
    told = said([*words, "--help"]).stdout.decode()
    options = set(re.findall(r"--([a-z]+)", told)) - {"no"}
    for place in ("bash-completion/completions/rewind", "zsh/vendor-completions/_rewind", "fish/vendor_completions.d/rewind.fish"):
        completed = (top / "usr/share" / place).read_text(encoding="utf-8")
        assert all(re.search(rf"(--|-l ){option}\b", completed) for option in options), (place, options)
    for name in ("rewind", "rewind-shell", "rewind-hunt", "rewind-dap"):
        assert (top / f"usr/share/man/man1/{name}.1.gz").exists()


@pytest.mark.parametrize("kind", ["amd64", "arm64"])
def test_lintian_finds_nothing(kind: str, find: Find) -> None:
    package = find(f"rewind_*_{kind}.deb")
    done = said([needs("lintian"), "--allow-root", "--fail-on", "error,warning", str(package)])
    assert done.returncode == 0, done.stdout.decode()


def made_environment(folder: Path, wheel: Path) -> Path:
    """The programs of an environment that has the wheel alone."""
    subprocess.run([sys.executable, "-m", "venv", str(folder)], check=True)
    subprocess.run([str(folder / "bin/pip"), "install", "--quiet", "--no-index", "--no-deps", str(wheel)], check=True)
    return folder / "bin"


@pytest.mark.parametrize("kind", ["manylinux2014_x86_64", "any"])
def test_a_wheel(kind: str, find: Find, tmp_path: Path) -> None:
    """That for any machine has the program for Node."""
    needs("node")
    programs = made_environment(tmp_path / "env", find(f"rewind_clients-*{kind}.whl"))
    environment = {"PATH": f"{programs}:/usr/bin:/bin:{Path(str(shutil.which('node'))).parent}", "HOME": str(tmp_path)}
    words = [str(programs / "rewind-shell"), str(EXAMPLES / "lock_order.go")]
    done = subprocess.run(words, input=b"run 100\nwhy\nquit\n", capture_output=True, env=environment, timeout=SECONDS, check=False)
    assert b"g0.1 waits for g0.2" in done.stdout, done.stdout + done.stderr


def test_each_link_of_the_book_leads_somewhere(find: Find) -> None:
    text = find("rewind-documents.html").read_text(encoding="utf-8")
    places = re.findall(r'id="([^"]+)"', text)
    assert len(places) == len(set(places)) > 50
    assert {it for it in re.findall(r'href="#([^"]+)"', text) if it not in set(places)} == set()


def test_the_bill_has_each_file(find: Find) -> None:
    bill = find("rewind.spdx.json")
    told = json.loads(bill.read_text(encoding="utf-8"))
    others = {path.name for path in bill.parent.iterdir()} - {bill.name, "SHA256SUMS", "README.md"}
    assert {it["fileName"] for it in told["files"]} == {f"./{name}" for name in others}
    known = {told["SPDXID"], *(it["SPDXID"] for it in told["packages"] + told["files"])}
    assert len(known) == 1 + len(told["packages"]) + len(told["files"])
    assert all({it["spdxElementId"], it["relatedSpdxElement"]} <= known for it in told["relationships"])
