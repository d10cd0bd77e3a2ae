#!/bin/sh
# lint.sh [PART..]: checks style and types: flake8 and `mypy --strict` over all Python, shellcheck over all scripts for the shell, tsc and
# eslint over the page, gofmt and `go vet` over what carries Go over. The parts are flake8, mypy, shellcheck, page and go; with none
# named, all of them.
set -eu
top=$(cd "$(dirname "$0")/.." && pwd)
cd "$top"
python=$(tests/python.sh)

# The files that git knows whose first line names an interpreter, or whose names end so.
files() {
  git ls-files --cached --others --exclude-standard "*.$1"
  git ls-files --cached --others --exclude-standard | grep -v '\.[a-z]*$' | while read -r file; do
    if [ -f "$file" ] && head -n 1 "$file" | grep -q "^#!.*$2\$"; then echo "$file"; fi
  done
}

lint() {
  case $1 in
    flake8) files py python3 | xargs "$python" -m flake8 ;;
    mypy) "$python" -m mypy ;;
    # What sed or another shell is to read stands in single quotes (SC2016).
    shellcheck) files sh '\(ba\)\?sh' | xargs shellcheck --exclude=SC2016 ;;
    page)
      page/needs.sh nodejs node-typescript eslint
      page/lint.sh
      ;;
    go)
      command -v go >/dev/null || tools/packages.sh golang-go
      badly=$(gofmt -l carry)
      [ -z "$badly" ] || { echo "gofmt would change $badly"; exit 1; }
      (cd carry && go vet ./...)
      ;;
    *)
      echo "rewind: lint has the parts flake8, mypy, shellcheck, page and go" >&2
      exit 2
      ;;
  esac
}

[ $# -gt 0 ] || set -- flake8 mypy shellcheck page go
status=0
for part; do
  (lint "$part") || status=1
done
exit "$status"
