"""The files of the committed release, if there is one.

The files and their sums are those that SHA256SUMS and README.md tell. Archives, program and CHANGELOG.md have one version. The
words of the program, the manual page, the extension and the package of the clients have that one too, or all a later one that is
not released (1.2.0-dev). README.md names the commit and the toolchain that the archive names, and git has that commit before the
present one.
"""
from __future__ import annotations

import hashlib
import os
import re
import subprocess
import tarfile
from pathlib import Path
from typing import Optional

import pytest

from support.places import TOP

DIST = TOP / "dist"
ARCHIVE = re.compile(r"rewind-(\d+\.\d+\.\d+)-x86_64-linux\.tar\.xz")
MOST_OF_ALL = 12_000_000
ORIGIN = re.compile(r"from commit `([0-9a-f]{40})` of [\w ]+, with the toolchain `(\S+ logic [0-9a-f]{16})`")
RELEASED = r"^## (\d+\.\d+\.\d+)$"
# Where the version of the repository stands.
VERSIONS = {
    "words/program.txt": r"^version\n    text: (\S+)$",
    "docs/rewind.1": r'^\.TH REWIND 1 "" "Rewind (\S+)"',
    "editors/vscode/package.json": r'^  "version": "(\S+)",$',
    "pyproject.toml": r'^version = "(\S+)"$',
}


def read(path: Path) -> str:
    return path.read_text(encoding="utf-8")


def first(pattern: str, text: str) -> Optional[str]:
    """What the group of a pattern finds first in a text, or nothing."""
    found = re.search(pattern, text, re.M)
    return found[1] if found else None


def git(*words: str) -> tuple[str, bool]:
    """What git says, and whether it could."""
    try:
        ran = subprocess.run(["git", "-C", str(TOP), *words], capture_output=True, text=True, check=False)
    except OSError:
        return "", False
    return ran.stdout.strip(), ran.returncode == 0


def is_committed() -> bool:
    said, can = git("ls-files", "dist/SHA256SUMS")
    return bool(said) if can else (DIST / "SHA256SUMS").exists()


pytestmark = pytest.mark.skipif(not is_committed(), reason="no release is committed: git has no dist/SHA256SUMS")


@pytest.fixture(scope="module")
def told() -> str:
    """What README.md says of the files."""
    return read(DIST / "README.md")


@pytest.fixture(scope="module")
def archive() -> Path:
    return next(path for path in sorted(DIST.iterdir()) if ARCHIVE.fullmatch(path.name))


@pytest.fixture(scope="module")
def unpacked(archive: Path, tmp_path_factory: pytest.TempPathFactory) -> Path:
    """A folder with the program of the archive and its VERIFY.md."""
    folder, top = tmp_path_factory.mktemp("dist"), archive.name[: -len(".tar.xz")]
    with tarfile.open(archive) as tar:
        tar.extractall(folder, [tar.getmember(f"{top}/{name}") for name in ("bin/rewind", "VERIFY.md")])
    return folder / top


def files_of(version: str) -> list[str]:
    """The files of a release, in the order in which their sums are told."""
    machines = [f"rewind-{version}-{it}-linux.tar.xz" for it in ("x86_64", "arm64")]
    packages = [f"rewind_{version}_{it}.deb" for it in ("amd64", "arm64")]
    wheels = [f"rewind_clients-{version}-py3-none-{it}.whl" for it in ("any", "manylinux2014_x86_64", "manylinux2014_aarch64")]
    return [*machines, *packages, "rewind.mjs", *wheels, "rewind-documents.html", "rewind.html", "rewind.spdx.json"]


def test_the_files_are_those_of_a_release(archive: Path) -> None:
    assert sorted(os.listdir(DIST)) == sorted([*files_of(version_of(archive)), "README.md", "SHA256SUMS"])


def test_sums_and_sizes(archive: Path, told: str) -> None:
    files = [DIST / name for name in files_of(version_of(archive))]
    sums = {path: hashlib.sha256(path.read_bytes()).hexdigest() for path in files}
    assert read(DIST / "SHA256SUMS") == "".join(f"{sums[path]}  {path.name}\n" for path in files)
    assert sum(path.stat().st_size for path in files) < MOST_OF_ALL
    for path in files:
        assert f"| `{path.name}` | {path.stat().st_size:,} | `{sums[path]}` |" in told


def version_of(archive: Path) -> str:
    found = ARCHIVE.fullmatch(archive.name)
    assert found
    return found[1]


def test_the_program_of_the_archive_is_proved_and_of_its_version(archive: Path, unpacked: Path) -> None:
    said = subprocess.run([unpacked / "bin" / "rewind", "--version"], capture_output=True, text=True, check=True).stdout
    assert said == f"rewind {version_of(archive)}\n"
    assert first(RELEASED, read(TOP / "CHANGELOG.md")) == version_of(archive)


def test_the_version_here_is_that_of_the_archive_or_a_later_one_that_is_not_released(archive: Path) -> None:
    here = first(VERSIONS["words/program.txt"], read(TOP / "words" / "program.txt")) or ""
    released = version_of(archive)
    found = re.fullmatch(r"(\d+)\.(\d+)\.(\d+)-dev", here)
    is_later = found and [int(number) for number in found.groups()] > [int(number) for number in released.split(".")]
    assert here == released or is_later


@pytest.mark.parametrize("path", VERSIONS)
def test_one_version(path: str) -> None:
    told = first(VERSIONS[path], read(TOP / path))
    here = first(VERSIONS["words/program.txt"], read(TOP / "words" / "program.txt"))
    assert told and told.replace(".dev0", "-dev") == here


def test_the_commit_and_the_toolchain(told: str, unpacked: Path) -> None:
    origin, same = ORIGIN.search(told), ORIGIN.search(read(unpacked / "VERIFY.md"))
    assert origin and same and same.groups() == origin.groups()
    said, can = git("rev-parse", "--is-shallow-repository")
    if can and said == "false":
        assert git("merge-base", "--is-ancestor", origin[1], "HEAD")[1], "the commit does not come before the present one"


def test_the_readme_names_the_version(archive: Path) -> None:
    """The README says of which version the files of dist are."""
    assert f"Release {version_of(archive)}" in read(TOP / "README.md")
