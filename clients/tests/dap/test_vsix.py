"""The extension for VS Code: its commands, and the package from which it starts outside the repository."""
import json
import os
import re
import shutil
import subprocess
import sys
import zipfile
from pathlib import Path
from typing import Any
from xml.etree import ElementTree

import pytest

from .client import ADAPTER, DATA, HERE, REPOSITORY, REWIND, Client

EXTENSION = os.path.join(REPOSITORY, "editors", "vscode")
NODE = shutil.which("node") or shutil.which("nodejs") or ""


class TestPackage:
    @pytest.fixture(autouse=True)
    def package_made(self, tmp_path: Path) -> None:
        self.folder = str(tmp_path)
        self.package = self.packed("rewind.vsix")

    def packed(self, name: str) -> str:
        path = os.path.join(self.folder, name)
        words = [sys.executable, os.path.join(REPOSITORY, "tools", "release", "vsix.py"), REWIND, path]
        subprocess.run(words, check=True, stdout=subprocess.PIPE)
        return path

    def unpacked(self) -> str:
        """The folder of the extension, as VS Code unpacks it."""
        with zipfile.ZipFile(self.package) as archive:
            archive.extractall(self.folder)
            for entry in archive.infolist():
                os.chmod(os.path.join(self.folder, entry.filename), entry.external_attr >> 16 & 0o777)
        return os.path.join(self.folder, "extension")

    def test_the_same_files_give_the_same_bytes(self) -> None:
        with open(self.package, "rb") as one, open(self.packed("again.vsix"), "rb") as other:
            assert one.read() == other.read()

    def test_what_it_says_of_itself_is_there(self) -> None:
        folder = self.unpacked()
        manifest = ElementTree.parse(os.path.join(self.folder, "extension.vsixmanifest")).getroot()
        assets = [one.get("Path", "") for one in manifest.iter() if one.tag.endswith("}Asset")]
        types = ElementTree.parse(os.path.join(self.folder, "[Content_Types].xml")).getroot()
        known = {one.get("Extension") for one in types}
        with zipfile.ZipFile(self.package) as archive:
            names = archive.namelist()
        assert len(assets) == 2
        assert set(assets) <= set(names)
        assert {os.path.splitext(name)[1] for name in names if name.startswith("extension")} - {""} <= known
        with open(os.path.join(folder, "package.json"), encoding="utf-8") as file:
            package = json.load(file)
        named = [package["main"], package["contributes"]["debuggers"][0]["program"]]
        assert all(os.path.exists(os.path.join(folder, name)) for name in named)
        identity = next(one for one in manifest.iter() if one.tag.endswith("}Identity"))
        assert [identity.get("Id"), identity.get("Version")] == [package["name"], package["version"]]

    def test_the_adapter_starts_from_there_without_the_repository(self) -> None:
        folder = self.unpacked()
        words = [sys.executable, os.path.join(folder, "rewind-dap")]
        client = Client.of(words, {"PATH": "/nowhere", "HOME": self.folder})
        client.launch(os.path.join(DATA, "deadlock.go"), stopOnEntry=False)
        assert client.stop()["reason"] == "deadlock"
        told = client.body("evaluate", {"expression": "why", "context": "repl"})["result"]
        assert "A cycle: g0.1 waits for g0.2" in told
        assert client.body("rewind/back", {"step": "g0#1"})["steps"][0] == "g0#1"
        assert client.close() == ""


@pytest.mark.skipif(not NODE, reason="it wants nodejs")
class TestCommands:
    def run_commands(self, *commands: str) -> list[dict[str, Any]]:
        words = [NODE, os.path.join(HERE, "extension.js"), EXTENSION, ADAPTER, os.path.join(DATA, "lost_update.go"), *commands]
        done = subprocess.run(words, stdout=subprocess.PIPE, timeout=60, check=True, env={**os.environ, "REWIND": REWIND})
        return [json.loads(line) for line in done.stdout.decode().splitlines()]

    def test_steps_go_back_and_come_again(self) -> None:
        told = self.run_commands("rewind.why", "rewind.takeBackLast=g0.3", "rewind.redo", "rewind.takeBack=g0.1#5", "rewind.redo")
        whole = told[0]["steps"]
        assert "The program has ended" in told[0]["said"][0]
        assert sorted(set(whole) - set(told[1]["steps"])) == ["g0#12", "g0.3#5"]
        assert sorted(told[2]["steps"]) == sorted(whole)
        assert "g0.1#5" not in told[3]["steps"]
        assert sorted(told[4]["steps"]) == sorted(whole)

    def test_causes_and_dependents_are_written(self) -> None:
        told = self.run_commands("rewind.causes=g0.2#1", "rewind.dependents=g0#12", "rewind.redo")
        assert re.match(r"The causes of g0\.2#1: g0#1 .* g0\.2#1$", told[0]["said"][0])
        assert told[1]["said"] == ["What depends on g0#12: g0#12"]
        assert told[2]["said"] == ["Rewind: there is nothing to redo (no B5)"]

    def test_each_command_that_is_offered_is_there(self) -> None:
        with open(os.path.join(EXTENSION, "package.json"), encoding="utf-8") as file:
            offered = [one["command"] for one in json.load(file)["contributes"]["commands"]]
        with open(os.path.join(EXTENSION, "extension.js"), encoding="utf-8") as file:
            assert re.findall(r"'(rewind\.\w+)':", file.read()) == offered
