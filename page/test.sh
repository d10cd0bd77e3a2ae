#!/bin/sh
# test.sh PAGE.html [--short | --part NAME]: tests a page: its types and style, its modules alone, and in headless Chromium the example
# sessions byte for byte, stories by clicks and keys, and pictures to look at (page/out/looks); in Firefox and WebKitGTK, where they are
# there, the sessions and a story. The short form has the sessions and one story in Chromium; one part of those in browsers can be named.
# Node's own report stands last.
here=$(cd "$(dirname "$0")" && pwd)

stop() {
  echo "rewind: $1" >&2
  exit 2
}

case $#:$2 in
  1:) PART= ;;
  2:--short) PART=short ;;
  3:--part) PART=$3 ;;
  *) stop "name a page, as page/test.sh bin/rewind-quick.html" ;;
esac
[ -f "$1" ] || stop "there is no page $1: make it by 'make page' or 'make quick-page'"
for tool in node chromium tsc eslint; do
  command -v "$tool" >/dev/null || stop "there is no '$tool' on the path: 'page/needs.sh chromium nodejs node-typescript eslint' installs it"
done
LOOKS=$here/out/looks
mkdir -p "$LOOKS" 2>/dev/null || stop "cannot write in $here/out"
PAGE=$(realpath "$1")
export PAGE LOOKS PART
if [ "$PART" ] && [ "$PART" != short ]; then
  exec node "$here/test/run.mjs"
fi
exec node --test --test-concurrency=1 "$here"/test/unit/*.mjs "$here/test/tools.mjs" "$here/test/run.mjs"
