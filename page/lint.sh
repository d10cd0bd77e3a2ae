#!/bin/sh
# lint.sh: checks the types (tsc) and the style (eslint) of the page, of its tests and of the extension for VS Code. Debian's tools find
# their modules in Debian's folder.
cd "$(dirname "$0")/.." || exit
for tool in tsc eslint; do
  command -v "$tool" >/dev/null && continue
  echo "rewind: there is no '$tool' on the path: 'page/needs.sh node-typescript eslint' installs it" >&2
  exit 2
done
export NODE_PATH=/usr/share/nodejs
status=0
for project in page editors/vscode; do
  tsc -p "$project" || status=1
done
eslint -f compact --ext .js,.mjs page/src page/test editors/vscode/extension.js || status=1
exit $status
