#!/bin/sh
# python.sh: prints a Python that has what tests and lint want: that on the path, or that of Debian, for which packages are installed
# where they are missing. Where that cannot be done, one sentence says what to install, and the status is 2.
packages="python3-pytest python3-pytest-xdist python3-pytest-timeout python3-hypothesis python3-pexpect"
packages="$packages python3-markdown-it python3-prompt-toolkit mypy flake8 shellcheck"
modules='import flake8, hypothesis, markdown_it, mypy, pexpect, prompt_toolkit, pytest, pytest_timeout, xdist'

found() {
  command -v shellcheck >/dev/null || return
  for python in python3 /usr/bin/python3; do
    if "$python" -c "$modules" 2>/dev/null; then
      command -v "$python"
      return
    fi
  done
  return 1
}

found && exit
echo "tests: installing Debian's packages" >&2
# shellcheck disable=SC2086
"$(dirname "$0")/../tools/packages.sh" $packages >&2 || :
found && exit
echo "rewind: the tests need what could not be installed here: 'apt-get install $packages'" >&2
exit 2
