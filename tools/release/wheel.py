"""Wheels of the clients: one for any machine, with the program for Node, and one for each kind of Linux, with the program itself."""
from __future__ import annotations

import os
import shutil
import subprocess
import tempfile
from pathlib import Path

from tools import kit

# What the program is linked to decides the oldest Linux. It is linked statically, and needs no C library of the system.
PLATFORMS = {"amd64": "manylinux2014_x86_64", "arm64": "manylinux2014_aarch64"}


class Maker:
    """Debian's tools for wheels, which put this time, in seconds since 1970, in place of that of a file."""

    def __init__(self, time: int) -> None:
        self.python = kit.python_with("build", "setuptools", "wheel")
        self.environment = {**os.environ, "SOURCE_DATE_EPOCH": str(time), "PYTHONPATH": ""}

    def run(self, *words: str) -> None:
        done = subprocess.run([self.python, "-m", *words], capture_output=True, text=True, check=False, env=self.environment)
        if done.returncode:
            kit.stop(f"no wheel is made: {(done.stderr or done.stdout).strip().splitlines()[-1]}")

    def plain(self, top: Path, out: Path) -> Path:
        """The wheel of the sources below `top`."""
        self.run("build", "--wheel", "--no-isolation", "--outdir", str(out), str(top))
        (wheel,) = out.glob("*.whl")
        return wheel

    def with_program(self, wheel: Path, work: Path, program: str, platform: str) -> Path:
        """A wheel that puts the program on the path, too, for this platform."""
        self.run("wheel", "unpack", "--dest", str(work), str(wheel))
        (folder,) = (it for it in work.iterdir() if it.is_dir())
        add_program(folder, program, platform)
        (work / "packed").mkdir()
        self.run("wheel", "pack", "--dest-dir", str(work / "packed"), str(folder))
        (made,) = (work / "packed").glob("*.whl")
        return made


def add_program(folder: Path, program: str, platform: str) -> None:
    """Adds the program to a wheel that is unpacked."""
    scripts = folder / f"{folder.name}.data" / "scripts"
    scripts.mkdir(parents=True)
    shutil.copy(program, scripts / "rewind")
    (scripts / "rewind").chmod(0o755)
    about = folder / f"{folder.name}.dist-info" / "WHEEL"
    told = about.read_text(encoding="utf-8").replace("Root-Is-Purelib: true", "Root-Is-Purelib: false")
    about.write_text(told.replace("py3-none-any", f"py3-none-{platform}"), encoding="utf-8")


def sources(work: Path) -> Path:
    """The clients alone, as setuptools takes them, so that nothing is written in the repository."""
    top = work / "sources"
    shutil.copytree(f"{kit.ROOT}/clients", top / "clients", ignore=shutil.ignore_patterns("tests", "__pycache__"))
    for name in ("pyproject.toml", "LICENSE"):
        shutil.copy(f"{kit.ROOT}/{name}", top)
    return top


def made(programs: dict[str, str], node: str, time: int) -> dict[str, bytes]:
    """The name and the bytes of each wheel: one for each machine of `programs`, and the one for Node. The same files give the same bytes."""
    with tempfile.TemporaryDirectory(prefix="rewind-wheel-") as name:
        work, maker = Path(name), Maker(time)
        for folder in ("plain", "any", *programs):
            (work / folder).mkdir()
        top = sources(work)
        bare = maker.plain(top, work / "plain")
        beside = top / "clients/rewind_client/rewind.mjs"
        shutil.copy(node, beside)
        beside.chmod(0o755)
        wheels = [maker.plain(top, work / "any")]
        wheels += [maker.with_program(bare, work / machine, program, PLATFORMS[machine]) for machine, program in programs.items()]
        return {it.name: it.read_bytes() for it in wheels}
