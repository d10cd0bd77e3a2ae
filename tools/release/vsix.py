#!/usr/bin/env python3
"""Packs the extension for VS Code, with the adapter, its library and the program, into a file that VS Code installs.

    python3 -m tools.release.vsix [--stored] [--target PLATFORM] PROGRAM OUT

With --stored nothing is compressed, for an archive that is compressed itself. PLATFORM is linux-x64, or linux-arm64.

The same files give the same bytes: each entry has a fixed time, and they stand in the order of their names.
"""
import argparse
import json
import os
import sys
import zipfile
from typing import Any
from xml.sax.saxutils import quoteattr

TOP = os.path.dirname(os.path.dirname(os.path.dirname(os.path.realpath(__file__))))
EXTENSION = os.path.join(TOP, "editors", "vscode")
CLIENTS = os.path.join(TOP, "clients")
OWN = ("package.json", "extension.js", "rewind-dap", "README.md")
# The adapter stands on the library, and its console on the words of the shell.
PACKAGES = ("rewind_client", "rewind_dap", "rewind_shell")
TIME = (1980, 1, 1, 0, 0, 0)
TYPES = {".json": "application/json", ".js": "application/javascript", ".md": "text/markdown", ".py": "text/x-python"}
TYPES[".vsixmanifest"] = "text/xml"


def files(program: str) -> dict[str, str]:
    """The path in the package of each file, with where it lies."""
    found = {name: os.path.join(EXTENSION, name) for name in OWN}
    found["clients/rewind-dap"] = os.path.join(CLIENTS, "rewind-dap")
    found["bin/rewind"] = program
    for package in PACKAGES:
        for folder, _, names in os.walk(os.path.join(CLIENTS, package)):
            for name in names:
                if name.endswith((".py", ".json")):
                    path = os.path.join(folder, name)
                    found["clients/" + os.path.relpath(path, CLIENTS)] = path
    return {"extension/" + name: path for name, path in sorted(found.items())}


def manifest(package: dict[str, Any], platform: str) -> str:
    """What the package is, as VS Code reads it."""
    identity = {"Language": "en-US", "Id": package["name"], "Version": package["version"], "Publisher": package["publisher"]}
    identity["TargetPlatform"] = platform
    told = " ".join(f"{name}={quoteattr(value)}" for name, value in identity.items())
    return f"""<?xml version="1.0" encoding="utf-8"?>
<PackageManifest Version="2.0.0" xmlns="http://schemas.microsoft.com/developer/vsx-schema/2011">
  <Metadata>
    <Identity {told} />
    <DisplayName>{package["displayName"]}</DisplayName>
    <Description xml:space="preserve">{package["description"]}</Description>
    <Categories>{",".join(package["categories"])}</Categories>
    <Properties>
      <Property Id="Microsoft.VisualStudio.Code.Engine" Value={quoteattr(package["engines"]["vscode"])} />
      <Property Id="Microsoft.VisualStudio.Code.ExtensionKind" Value="workspace" />
    </Properties>
  </Metadata>
  <Installation><InstallationTarget Id="Microsoft.VisualStudio.Code" /></Installation>
  <Dependencies />
  <Assets>
    <Asset Type="Microsoft.VisualStudio.Code.Manifest" Path="extension/package.json" Addressable="true" />
    <Asset Type="Microsoft.VisualStudio.Services.Content.Details" Path="extension/README.md" Addressable="true" />
  </Assets>
</PackageManifest>
"""


def content_types() -> str:
    rows = "".join(f'  <Default Extension="{name}" ContentType="{kind}" />\n' for name, kind in sorted(TYPES.items()))
    return (
        '<?xml version="1.0" encoding="utf-8"?>\n'
        f'<Types xmlns="http://schemas.openxmlformats.org/package/2006/content-types">\n{rows}</Types>\n'
    )


def pack(program: str, out: str, platform: str, method: int) -> None:
    with open(os.path.join(EXTENSION, "package.json"), encoding="utf-8") as file:
        package = json.load(file)
    with zipfile.ZipFile(out, "w", method) as archive:
        write(archive, "extension.vsixmanifest", manifest(package, platform).encode(), False)
        write(archive, "[Content_Types].xml", content_types().encode(), False)
        for name, path in files(program).items():
            with open(path, "rb") as content:
                write(archive, name, content.read(), os.access(path, os.X_OK))


def write(archive: zipfile.ZipFile, name: str, content: bytes, runs: bool) -> None:
    entry = zipfile.ZipInfo(name, TIME)
    entry.compress_type = archive.compression
    entry.create_system = 3
    entry.external_attr = (0o100755 if runs else 0o100644) << 16
    archive.writestr(entry, content, compresslevel=9)


def main() -> int:
    parser = argparse.ArgumentParser(description="Packs the extension for VS Code into a file that VS Code installs.")
    parser.add_argument("--stored", action="store_true", help="compress nothing, for an archive that is compressed itself")
    parser.add_argument("--target", metavar="PLATFORM", default="linux-x64", choices=("linux-x64", "linux-arm64"), help="for which machine")
    parser.add_argument("program", metavar="PROGRAM")
    parser.add_argument("out", metavar="OUT")
    asked = parser.parse_args()
    program, out = asked.program, asked.out
    if not os.access(program, os.X_OK):
        print(f"vsix: there is no program {program}: build one by 'make quick' or 'make'", file=sys.stderr)
        return 2
    os.makedirs(os.path.dirname(os.path.abspath(out)), exist_ok=True)
    pack(program, out, asked.target, zipfile.ZIP_STORED if asked.stored else zipfile.ZIP_DEFLATED)
    print(f"{out}: {os.path.getsize(out):,} bytes")
    return 0


if __name__ == "__main__":
    sys.exit(main())
