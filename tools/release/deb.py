"""A package of Debian with the program, its manual pages, the page, the clients and what completes their options in a shell."""
from __future__ import annotations

import gzip
import hashlib
import os
import shutil
import subprocess
import tempfile
from email.utils import formatdate
from pathlib import Path

from tools import kit
from tools.release import manuals, notices
from tools.release.addresses import maintainer
from tools.release.options import completions
from tools.release.versions import read, version

DESKTOP = """[Desktop Entry]
Type=Application
Name=Rewind
Comment=Reverse debugger for goroutine programs, in a page
Exec=xdg-open /usr/share/rewind/rewind.html
Icon=applications-development
Categories=Development;Debugger;
Terminal=false
"""
CONTROL = """Package: rewind
Version: {version}
Architecture: {architecture}
Maintainer: {maintainer}
Installed-Size: {size}
Depends: python3 (>= 3.9)
Recommends: python3-prompt-toolkit, xdg-utils
Section: devel
Priority: optional
Description: reverse debugger for goroutine programs
 Rewind debugs programs of a small Go with goroutines and channels. A step goes
 back with all that depends on it, and with nothing else. It tells whether any
 schedule ends badly, and shows one that does.
 .
 This package has the program, a shell, a hunt for bad schedules, an adapter
 for editors, and the debugger in a web page.
"""
COPYRIGHT = """Format: https://www.debian.org/doc/packaging-manuals/copyright-format/1.0/
Upstream-Name: Rewind

Files: *
Copyright: {holder}
License: MIT
{terms}
Comment:
 What is linked into the program beside Rewind has the terms in
 /usr/share/doc/rewind/NOTICES.gz.
"""
HISTORY = """rewind ({version}) unstable; urgency=medium

  * What has changed stands in /usr/share/doc/rewind/CHANGELOG.md.

 -- {maintainer}  {date}
"""
# The program is linked statically, so that one file runs on any Linux; lintian takes it for a library without others. An address is
# named only where one is set. The browser that shows the page is one of many packages.
OVERRIDES = """rewind: statically-linked-binary [usr/bin/rewind]
rewind: shared-library-lacks-prerequisites [usr/bin/rewind]
rewind: bogus-mail-host Maintainer *
rewind: bogus-mail-host-in-debian-changelog *
rewind: desktop-command-not-in-package xdg-open *
"""
# What Python keeps beside the clients where root has run them.
BEFORE_REMOVAL = """#!/bin/sh
set -e
find /usr/lib/rewind -name __pycache__ -prune -exec rm -rf {} +
"""
CLIENTS = ("rewind-shell", "rewind-hunt", "rewind-dap")


def version_of_package() -> str:
    """The version as Debian orders it: one that is not released yet comes before the release."""
    return version().replace("-dev", "~dev")


def put(path: Path, text: str) -> None:
    path.parent.mkdir(parents=True, exist_ok=True)
    path.write_text(text, encoding="utf-8")


def put_packed(path: Path, text: str) -> None:
    path.parent.mkdir(parents=True, exist_ok=True)
    path.with_name(path.name + ".gz").write_bytes(gzip.compress(text.encode(), 9, mtime=0))


def license_terms() -> tuple[str, str]:
    """Who holds the rights, and the terms as a file of Debian has them."""
    lines = read(f"{kit.ROOT}/LICENSE").strip().splitlines()
    holder = next(line for line in lines if line.startswith("Copyright")).removeprefix("Copyright").removeprefix(" (c)").strip()
    return holder, "\n".join(f" {line}" if line else " ." for line in lines)


def stage(top: Path, program: str, runs: str, page: str, time: int) -> None:
    """Leaves the files of the package below `top`. `runs` is the same program for this machine."""
    words = [f"{kit.ROOT}/tools/release/install.sh", str(top), "/usr"]
    subprocess.run(words, stdout=subprocess.DEVNULL, check=True, env={**os.environ, "REWIND_PROGRAM": program})
    share = top / "usr/share"
    told = {name: subprocess.run([it, "--help"], capture_output=True, text=True, check=True).stdout for name, it in programs_of(runs).items()}
    for name, text in told.items():
        for place, words_of in completions(name, text).items():
            put(share / place, words_of)
    for name in CLIENTS:
        put_packed(share / f"man/man1/{name}.1", manuals.manual(name, f"{kit.ROOT}/clients/{name}", time))
    page_of_rewind = share / "man/man1/rewind.1"
    put_packed(page_of_rewind, page_of_rewind.read_text(encoding="utf-8"))
    page_of_rewind.unlink()
    put(share / "applications/rewind.desktop", DESKTOP)
    (share / "rewind").mkdir()
    shutil.copy(page, share / "rewind/rewind.html")
    documents(share, time)


def programs_of(runs: str) -> dict[str, str]:
    return {"rewind": runs, **{name: f"{kit.ROOT}/clients/{name}" for name in CLIENTS}}


def documents(share: Path, time: int) -> None:
    """What Debian wants to find of a package's history and terms."""
    folder = share / "doc/rewind"
    holder, terms = license_terms()
    put(folder / "copyright", COPYRIGHT.format(holder=holder, terms=terms))
    put_packed(folder / "NOTICES", notices.of_program(kit.folder()))
    date = formatdate(time, localtime=False)
    put_packed(folder / "changelog", HISTORY.format(version=version_of_package(), maintainer=maintainer(), date=date))
    put(share / "lintian/overrides/rewind", OVERRIDES)


def control(top: Path, architecture: str) -> None:
    files = sorted(it for it in top.rglob("*") if it.is_file() and not it.is_symlink())
    sums = "".join(f"{hashlib.md5(it.read_bytes()).hexdigest()}  {it.relative_to(top)}\n" for it in files)
    size = sum(it.stat().st_size // 1024 + 1 for it in files)
    told = {"version": version_of_package(), "architecture": architecture, "maintainer": maintainer(), "size": size}
    put(top / "DEBIAN/control", CONTROL.format(**told))
    put(top / "DEBIAN/md5sums", sums)
    put(top / "DEBIAN/prerm", BEFORE_REMOVAL)
    (top / "DEBIAN/prerm").chmod(0o755)


def made(program: str, runs: str, architecture: str, page: str, time: int) -> bytes:
    """The package. The same files give the same bytes."""
    with tempfile.TemporaryDirectory(prefix="rewind-deb-") as work:
        top, out = Path(work, "rewind"), f"{work}/rewind.deb"
        top.mkdir(mode=0o755)
        stage(top, program, runs, page, time)
        control(top, architecture)
        for path in (top, *top.rglob("*")):
            if not path.is_symlink():
                path.chmod(0o755 if path.is_dir() or path.stat().st_mode & 0o100 else 0o644)
        env = {**os.environ, "SOURCE_DATE_EPOCH": str(time), "DPKG_DEB_THREADS_MAX": "1"}
        for path in (top, *top.rglob("*")):
            os.utime(path, (time, time), follow_symlinks=False)
        subprocess.run(["dpkg-deb", "--root-owner-group", "-Zxz", "--build", str(top), out], stdout=subprocess.DEVNULL, check=True, env=env)
        return Path(out).read_bytes()
