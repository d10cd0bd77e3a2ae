#!/usr/bin/env python3
"""Makes the script that carries Go over in the page: Go's own start of a module, and the module itself, deflated.

    python3 -m tools.build.carry_page MODULE.wasm OUT.js
"""
import argparse
import base64
import subprocess
import zlib

from tools import kit

BEGIN = """
globalThis.beginCarry = async () => {
  const bytes = Uint8Array.from(atob(MODULE), (letter) => letter.charCodeAt(0));
  const stream = new Blob([bytes]).stream().pipeThrough(new DecompressionStream("deflate"));
  const go = new Go();
  const { instance } = await WebAssembly.instantiate(await new Response(stream).arrayBuffer(), go.importObject);
  go.run(instance);
  return globalThis.rewindCarry;
};
"""


def text(module: str) -> str:
    root = subprocess.run(["go", "env", "GOROOT"], stdout=subprocess.PIPE, text=True, check=True).stdout.strip()
    with open(f"{root}/misc/wasm/wasm_exec.js", encoding="utf-8") as start, open(module, "rb") as file:
        packed = base64.b64encode(zlib.compress(file.read(), 9)).decode()
        return f'{start.read()}\n{{\nconst MODULE = "{packed}";{BEGIN}}}\n'


def main() -> None:
    parser = argparse.ArgumentParser(description="Makes the script that carries Go over in the page.")
    parser.add_argument("module", metavar="MODULE.wasm")
    parser.add_argument("out", metavar="OUT.js")
    asked = parser.parse_args()
    kit.writable(asked.out)
    made = text(asked.module)
    with open(asked.out, "w", encoding="utf-8") as file:
        file.write(made)


if __name__ == "__main__":
    main()
