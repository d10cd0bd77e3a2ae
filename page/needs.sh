#!/bin/sh
# needs.sh PACKAGE..: installs what is missing of Debian's packages chromium, nodejs, libjs-codemirror, esbuild, node-typescript,
# eslint, firefox-esr, webkit2gtk-driver and xvfb. Where that cannot be done, one sentence says what to install, and the status is 2.

is_there() {
  case $1 in
    chromium) command -v chromium ;;
    nodejs) command -v node ;;
    node-typescript) command -v tsc ;;
    esbuild | eslint | firefox-esr) command -v "$1" ;;
    webkit2gtk-driver) command -v WebKitWebDriver ;;
    xvfb) command -v Xvfb ;;
    libjs-codemirror) ls /usr/share/javascript/codemirror/lib/codemirror.js ;;
  esac >/dev/null 2>&1
}

missing_of() {
  for package in "$@"; do
    is_there "$package" || printf ' %s' "$package"
  done
}

missing=$(missing_of "$@")
[ -n "$missing" ] || exit 0
echo "page: installing$missing"
# shellcheck disable=SC2086
"$(dirname "$0")/../tools/packages.sh" $missing
missing=$(missing_of "$@")
[ -n "$missing" ] || exit 0
echo "rewind: the page needs what could not be installed here: 'apt-get install$missing'" >&2
exit 2
