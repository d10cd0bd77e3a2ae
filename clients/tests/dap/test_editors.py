"""The set-ups of docs/EDITORS.md, each in its editor, where that is installed."""
import glob
import os
import re
import shutil
import subprocess
import tempfile

import pytest

from .client import DATA, HERE, REPOSITORY, REWIND

NEOVIM = shutil.which("nvim") or ""
EMACS = shutil.which("emacs") or ""
DAP_MODE = glob.glob("/usr/share/emacs/site-lisp/elpa-src/dap-mode-*")
PROGRAM = os.path.join(DATA, "deadlock.go")


def set_up(heading: str) -> str:
    """The first block of a section, with the path of this repository."""
    with open(os.path.join(REPOSITORY, "docs", "EDITORS.md"), encoding="utf-8") as file:
        section = file.read().split(f"\n## {heading}")[1].split("\n## ")[0]
    block = re.search(r"\n\n((?:    .*\n)+)", section)
    assert block
    return re.sub("^    ", "", block[1], flags=re.M).replace("REPOSITORY", REPOSITORY)


class TestEditors:
    def run_editor(self, heading: str, *words: str) -> str:
        """What an editor says, that runs a script beside this file with the set-up."""
        with tempfile.TemporaryDirectory() as folder:
            path = os.path.join(folder, "setup")
            with open(path, "w", encoding="utf-8") as file:
                file.write(set_up(heading))
            environment = {**os.environ, "SETUP": path, "PROGRAM": PROGRAM, "REWIND": REWIND, "HOME": folder}
            done = subprocess.run(words, env=environment, stdin=subprocess.DEVNULL, capture_output=True, text=True, timeout=90, check=False)
        assert done.returncode == 0, done.stderr
        return done.stdout

    @pytest.mark.skipif(not NEOVIM, reason="Neovim is not installed")
    def test_neovim(self) -> None:
        script = os.path.join(HERE, "neovim.lua")
        told = self.run_editor("Neovim", NEOVIM, "--headless", "-u", "NONE", "-c", "luafile " + script, "-c", "qa!")
        wanted = ["entry main 12", "step main 13", "step main 12", "deadlock main 18", "entry main 12"]
        assert told.split("\n")[:-1] == wanted

    @pytest.mark.skipif(not (EMACS and DAP_MODE), reason="Emacs or dap-mode is not installed")
    def test_emacs(self) -> None:
        told = self.run_editor("Emacs", EMACS, "-batch", "-l", os.path.join(HERE, "emacs.el"))
        assert "start: main 12\nnext: main 13\nreverse-next: main 12\n" in told
        assert "A cycle: g0.1 waits for g0.2, g0.2 waits for g0.1." in told
