#!/bin/sh
# needs.sh: installs Debian's packages by which a release is made and tested, where one of them is missing. Where that cannot be done,
# one sentence says what to install, and the status is 2.
packages="gcc-aarch64-linux-gnu libc6-dev-arm64-cross qemu-user-static dpkg-dev help2man lintian"
packages="$packages python3-build python3-wheel python3-setuptools python3-markdown-it"

are_there() {
  for command in aarch64-linux-gnu-gcc qemu-aarch64-static dpkg-deb help2man lintian; do
    command -v "$command" >/dev/null || return
  done
  PYTHONPATH='' /usr/bin/python3 -c 'import build, wheel, setuptools, markdown_it' 2>/dev/null
}

are_there && exit
echo "release: installing Debian's packages"
# shellcheck disable=SC2086
"$(dirname "$0")/../packages.sh" $packages || :
are_there && exit
echo "rewind: a release needs what could not be installed here: 'apt-get install $packages'" >&2
exit 2
