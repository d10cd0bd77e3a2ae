#!/bin/sh
# needs.sh: installs Debian's packages of the editors in which `make dap-test` tries the set-ups of docs/EDITORS.md, of what runs
# the extension for VS Code, and of the definitions of the protocol. What is missing is not tried.
set -eu
missing=
command -v node >/dev/null || missing="$missing nodejs"
command -v nvim >/dev/null || missing="$missing neovim"
command -v emacs >/dev/null || missing="$missing emacs-nox"
ls -d /usr/share/emacs/site-lisp/elpa-src/dap-mode-* >/dev/null 2>&1 || missing="$missing elpa-dap-mode"
[ -e /usr/share/nodejs/@vscode/debugprotocol ] || missing="$missing node-vscode-debugprotocol"
[ -n "$missing" ] || exit 0

echo "editors: installing$missing"
# shellcheck disable=SC2086
exec "$(dirname "$0")/../tools/packages.sh" $missing
