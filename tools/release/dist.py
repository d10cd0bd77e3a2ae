#!/usr/bin/env python3
"""Makes a release of the proved program: files that need no toolchain.

    python3 -m tools.release.dist [--trial] MODULE.bc MODULE.wasm PAGE.html FOLDER

FOLDER gets the page, the program for Node, archives, packages of Debian and wheels, the documents as a book, a bill of materials,
SHA256SUMS and README.md. MODULE.bc is the program's LLVM module, as page/module/proved_module.py leaves it. It is compiled for
x86-64 and for arm64, and linked statically, so that the program runs on any Linux. MODULE.wasm is what the page has of it.

The same commit gives the same bytes: an archive has its files in the order of their names, with the time of the commit
and one owner. The tree must be that of a commit, but for the folder dist, and the version that of CHANGELOG.md. A trial
may be of a changed tree, of any version and of the quick build; its texts say so.
"""
import argparse
import glob
import hashlib
import io
import lzma
import os
import re
import shutil
import subprocess
import tarfile
import tempfile

from tools import kit
from tools.machines import node
from tools.release import deb, notices, wheel
from tools.release.materials import bill
from tools.release.versions import first, read, version

TEXTS = f"{kit.ROOT}/tools/release"
SESSIONS = f"{kit.ROOT}/crates/sessions/data"
EXAMPLES = ("deadlock", "leaked_goroutine", "lost_update", "prime_sieve", "race_in_select", "send_on_closed")
PAGE = "rewind.html"
NODE = "rewind.mjs"
# What a folder of a release may hold, and how many bytes of each.
VERSIONED = r"rewind-{0}-(x86_64|arm64)-linux\.tar\.xz|rewind_{0}_(amd64|arm64)\.deb|rewind_clients-{0}-py3-none-\w+\.whl"
NAMES = re.compile(rf"rewind(-documents)?\.html|rewind\.(mjs|spdx\.json)|{VERSIONED.format('[a-z0-9.~-]+')}|SHA256SUMS|README\.md")
MOST = {"html": 2_500_000, "xz": 1_500_000, "deb": 2_000_000, "whl": 1_500_000, "mjs": 1_000_000, "json": 100_000}
MOST_OF_ALL = 12_000_000
# The machines of Linux, as Debian names them; and as an archive does, and the extension for VS Code.
MACHINES = {"amd64": "x86_64", "arm64": "arm64"}
EXTENSIONS = {"amd64": "linux-x64", "arm64": "linux-arm64"}
UNPROVED = "(unproved build)"
PROVED = "The program is the proved one."
TRIAL = "This is a trial and no release: the program may be unproved, and the tree changed."
# Parts of these packages of Debian are in the files, or decide their bytes.
PACKAGES = {
    "libc6-dev": "the C library, in the program",
    "binutils": "the linker of the program",
    "libjs-codemirror": "the editor, in the page",
    "esbuild": "how the page's modules are joined",
    "zlib1g": "how the page is compressed",
    "liblzma5": "how an archive is compressed",
    "libc6-dev-arm64-cross": "the C library, in the program for arm64",
    "gcc-aarch64-linux-gnu": "the compiler of its C file, and its linker",
    "dpkg": "how the packages of Debian are made",
    "help2man": "how manual pages are made of what `--help` says",
    "python3-setuptools": "how the wheels are made",
    "python3-wheel": "the same",
    "python3-markdown-it": "how the documents become a book",
}


def said_by(*words: str) -> str:
    return subprocess.run(words, cwd=kit.ROOT, stdout=subprocess.PIPE, text=True, check=True).stdout.strip()


def check_tree() -> None:
    """Ends the program where the tree is not that of a commit, or CHANGELOG.md does not begin with the version."""
    changed = said_by("git", "status", "--porcelain", "--", ".", ":!dist")
    if changed:
        kit.stop(f"a release is of a commit, and the tree has changed: {changed.splitlines()[0]}")
    if not re.fullmatch(r"\d+\.\d+\.\d+", version()):
        kit.stop(f"{version()} is no version of a release: CONTRIBUTING.md says how to make one")
    newest = first(r"^## (.*)$", f"{kit.ROOT}/CHANGELOG.md")
    if newest != version():
        kit.stop(f"CHANGELOG.md begins with '{newest}', and the program's version is {version()}")


def check_program(program: str, is_trial: bool) -> None:
    """Ends the program where that of the release has another version, or is not proved."""
    said = said_by(program, "--version")
    wanted = f"rewind {version()}"
    is_of_trial = said.startswith(wanted) and said.endswith(UNPROVED)
    if said != wanted and not (is_trial and is_of_trial):
        kit.stop(f"the program says '{said}', and that of a release says '{wanted}'")


def version_of(package: str) -> str:
    """The version of a package of Debian."""
    words = ["dpkg-query", "--show", "--showformat", "${Version}", package]
    ran = subprocess.run(words, capture_output=True, text=True) if shutil.which(words[0]) else None
    return ran.stdout if ran and not ran.returncode else "not known"


def facts(is_trial: bool) -> dict[str, str]:
    """What the texts of a release say of it."""
    rows = [(f"`{name}`", version_of(name), what) for name, what in PACKAGES.items()]
    compiler = said_by("cc", "--version").splitlines()[0]
    rows.append(("`cc`", compiler, "the beginning and the end of the program"))
    return {
        "VERSION": version(),
        "COMMIT": said_by("git", "rev-parse", "HEAD"),
        "KIT": said_by("rt", "version"),
        "STATE": TRIAL if is_trial else PROVED,
        "PACKAGES": "\n".join(f"| {' | '.join(row)} |" for row in rows),
    }


def filled(name: str, told: dict[str, str]) -> str:
    """A text of the release, with what is told in place of words in capitals."""
    return re.sub(rf"\b({'|'.join(told)})\b", lambda word: told[word[0]], read(f"{TEXTS}/{name}"))


def content_of(path: str) -> bytes:
    with open(path, "rb") as file:
        return file.read()


def write(path: str, content: bytes) -> None:
    with open(path, "wb") as file:
        file.write(content)
    os.chmod(path, 0o644)


def quietly(*words: str, **more: str) -> None:
    subprocess.run(words, stdout=subprocess.DEVNULL, check=True, env={**os.environ, **more})


def staged(program: str, machine: str, folder: str, told: dict[str, str]) -> None:
    """Leaves the files of the archive in `folder`."""
    quietly(f"{kit.ROOT}/tools/release/install.sh", folder, "/", REWIND_PROGRAM=program)
    quietly(f"{kit.ROOT}/tools/release/vsix.py", "--stored", "--target", EXTENSIONS[machine], program, f"{folder}/rewind.vsix")
    shutil.copy(f"{kit.ROOT}/LICENSE", folder)
    write(f"{folder}/NOTICES", notices.of_program(kit.folder()).encode())
    for name in ("README.md", "VERIFY.md"):
        write(f"{folder}/{name}", filled(name, told).encode())
    os.mkdir(f"{folder}/examples")
    for name in EXAMPLES:
        for ending in ("go", "script", "expect"):
            shutil.copy(f"{SESSIONS}/{name}.{ending}", f"{folder}/examples")


def entry_of(archive: tarfile.TarFile, path: str, name: str, time: int) -> tarfile.TarInfo:
    """The entry of a file, which tells nothing of the machine, its user and their settings."""
    entry = archive.gettarinfo(path, arcname=name)
    entry.uid = entry.gid = 0
    entry.uname = entry.gname = "root"
    entry.mtime = time
    runs = entry.isdir() or entry.issym() or entry.mode & 0o100
    entry.mode = 0o755 if runs else 0o644
    return entry


def packed(folder: str, top: str, time: int) -> bytes:
    """The archive of a folder, whose files are named below `top`."""
    content = io.BytesIO()
    with tarfile.open(fileobj=content, mode="w", format=tarfile.USTAR_FORMAT) as archive:
        for path in sorted(glob.glob(f"{folder}/**", recursive=True)):
            entry = entry_of(archive, path, os.path.normpath(os.path.join(top, os.path.relpath(path, folder))), time)
            if entry.isfile():
                with open(path, "rb") as file:
                    archive.addfile(entry, file)
            else:
                archive.addfile(entry)
    return lzma.compress(content.getvalue(), preset=6 | lzma.PRESET_EXTREME)


def programs(module: str, work: str) -> dict[str, str]:
    """Where the program for each machine lies, made of the module in `work`."""
    made = {machine: f"{work}/rewind-{machine}" for machine in MACHINES}
    subprocess.run([f"{kit.ROOT}/tools/build/quick_program.py", "--static", module, made["amd64"]], check=True)
    subprocess.run([f"{kit.ROOT}/tools/machines/arm64.py", module, made["arm64"]], check=True)
    return made


def archive_of(program: str, machine: str, told: dict[str, str], time: int, work: str) -> tuple[str, bytes]:
    """The name and the bytes of the archive for a machine."""
    top = f"rewind-{told['VERSION']}-{MACHINES[machine]}-linux"
    os.mkdir(f"{work}/{top}")
    staged(program, machine, f"{work}/{top}", told)
    return f"{top}.tar.xz", packed(f"{work}/{top}", top, time)


def book_of(work: str) -> bytes:
    """The documents as one page."""
    path = f"{work}/book.html"
    quietly(kit.python_with("markdown_it"), "-m", "tools.release.book", path, PYTHONPATH=kit.ROOT)
    with open(path, "rb") as file:
        return file.read()


def made(module: str, wasm: str, page: str, told: dict[str, str], is_trial: bool) -> dict[str, bytes]:
    """The name and the bytes of each file."""
    time = int(said_by("git", "log", "-1", "--format=%ct"))
    with tempfile.TemporaryDirectory(prefix="rewind-dist-") as work:
        built = programs(module, work)
        runs = built["amd64"]
        check_program(runs, is_trial)
        files = dict(archive_of(program, machine, told, time, work) for machine, program in built.items())
        for machine, program in built.items():
            files[f"rewind_{deb.version_of_package()}_{machine}.deb"] = deb.made(program, runs, machine, page, time)
        write(f"{work}/{NODE}", node.made(content_of(wasm)).encode())
        files[NODE] = content_of(f"{work}/{NODE}")
        files.update(wheel.made(built, f"{work}/{NODE}", time))
        files["rewind-documents.html"] = book_of(work)
    files[PAGE] = content_of(page)
    files["rewind.spdx.json"] = bill(files, parts(), time).encode()
    return files


def parts() -> dict[str, str]:
    """What is linked into the program, beside Rewind, and the version of each."""
    crates = {name: said_by("rt", "version") for name in notices.crates(kit.folder())}
    return {**crates, **{name: version_of(name) for name in ("libc6-dev", "libc6-dev-arm64-cross", "libjs-codemirror")}}


def check_sizes(files: dict[str, bytes]) -> None:
    """Ends the program where a file is larger than a release may be."""
    for name, content in files.items():
        most = MOST[name.rpartition(".")[2]]
        if len(content) > most:
            kit.fail(f"{name} has {len(content):,} bytes, and a release at most {most:,}")
    if sum(map(len, files.values())) > MOST_OF_ALL:
        kit.fail(f"the files have {sum(map(len, files.values())):,} bytes together, and a release at most {MOST_OF_ALL:,}")


def emptied(folder: str) -> None:
    """Makes the folder, or removes from it what an earlier release left."""
    os.makedirs(folder, exist_ok=True)
    strange = [name for name in sorted(os.listdir(folder)) if not NAMES.fullmatch(name)]
    if strange:
        kit.stop(f"{folder} has {strange[0]}, which is no file of a release: name another folder")
    for name in os.listdir(folder):
        os.remove(f"{folder}/{name}")


def make(module: str, wasm: str, page: str, folder: str, is_trial: bool) -> None:
    if not is_trial:
        check_tree()
    told = facts(is_trial)
    files = made(module, wasm, page, told, is_trial)
    check_sizes(files)
    sums = {name: hashlib.sha256(content).hexdigest() for name, content in files.items()}
    told["FILES"] = "\n".join(f"| `{name}` | {len(files[name]):,} | `{sums[name]}` |" for name in files)
    emptied(folder)
    for name, content in files.items():
        write(f"{folder}/{name}", content)
    write(f"{folder}/SHA256SUMS", "".join(f"{it}  {name}\n" for name, it in sums.items()).encode())
    write(f"{folder}/README.md", filled("RELEASE.md", told).encode())
    print("\n".join(f"{folder}/{name}: {len(content):,} bytes" for name, content in files.items()))


def main() -> None:
    parser = argparse.ArgumentParser(description="Makes a release of the proved program: files that need no toolchain.")
    parser.add_argument("--trial", action="store_true", help="of a changed tree, any version, and the quick build")
    for name in ("module", "wasm", "page", "folder"):
        parser.add_argument(name)
    asked = parser.parse_args()
    module, wasm, page, folder = (os.path.abspath(it) for it in (asked.module, asked.wasm, asked.page, asked.folder))
    for path in (module, wasm, page):
        if not os.path.isfile(path):
            kit.stop(f"there is no {path}")
    make(module, wasm, page, folder, asked.trial)


if __name__ == "__main__":
    main()
