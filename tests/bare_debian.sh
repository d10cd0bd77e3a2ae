#!/bin/sh
# bare_debian.sh ARCHIVE [NAME..]: tries the archive of a release on bare Debian (bullseye, bookworm and trixie), each in a folder
# that debootstrap makes with no more than the least of packages. The program tells its version, and gives the replies that lie
# beside the examples. Then Python is installed, and the shell, the hunt and the adapter start. Where the package of Debian lies beside
# the archive, it is installed, tried and removed again, and leaves no file. It needs root, debootstrap and a network. Each check gets a
# line, and the status is 1 where one fails.
set -eu
if ! [ -f "${1:-}" ]; then
  echo "tests: name the archive of a release, as tests/bare_debian.sh dist/rewind-1.2.0-x86_64-linux.tar.xz" >&2
  exit 2
fi
archive=$(realpath "$1")
package=$(find "$(dirname "$archive")" -name 'rewind_*_amd64.deb' | head -n 1)
shift
[ $# -gt 0 ] || set -- bullseye bookworm trixie
top=$(basename "$archive" .tar.xz)
work=$(mktemp -d "${TMPDIR:-/var/tmp}/rewind-bare.XXXXXX")
trap 'rm -rf --one-file-system "$work"' EXIT
REQUEST='{"seq": 1, "type": "request", "command": "initialize", "arguments": {"adapterID": "rewind"}}'
failed=0

# holds SENTENCE COMMAND..: tells whether a check holds.
holds() {
  sentence=$1
  shift
  if "$@" >"$work/said" 2>&1; then
    echo "$debian: $sentence"
  else
    failed=1
    echo "FAILED $debian: $sentence: $(tail -n 1 "$work/said")"
  fi
}

# inside COMMAND: runs a line of sh in the archive's folder on the bare Debian.
inside() {
  chroot "$work/$debian" env -i PATH=/usr/bin:/bin HOME=/root LANG=C.UTF-8 DEBIAN_FRONTEND=noninteractive sh -c "cd '/$top' && $1"
}

for debian; do
  debootstrap --variant=minbase "$debian" "$work/$debian" >"$work/log" 2>&1 || {
    failed=1
    echo "FAILED $debian: debootstrap makes no folder: $(tail -n 1 "$work/log")"
    continue
  }
  tar -xJf "$archive" -C "$work/$debian"
  holds "there is no Python" inside '! command -v python3'
  holds "the program tells its version" inside 'bin/rewind --version | grep "^rewind [0-9]"'
  holds "the examples give the replies beside them" inside 'cd examples && for it in *.go; do
    ../bin/rewind "$it" <"${it%.go}.script" 2>&1 | cmp - "${it%.go}.expect" || exit 1; done'
  holds "without Python the shell does not start" inside '! bin/rewind-shell examples/deadlock.go </dev/null'
  holds "Python is installed" inside 'apt-get -qq update && apt-get -qq install -y --no-install-recommends python3'
  holds "the shell tells why the program is stuck" inside 'printf "run 100\nwhy\nquit\n" | bin/rewind-shell examples/deadlock.go | grep waits'
  holds "the hunt finds a deadlock" inside 'bin/rewind-hunt --seed 1 examples/deadlock.go | grep "deadlock: no goroutine"'
  printf 'Content-Length: %s\r\n\r\n%s' ${#REQUEST} "$REQUEST" >"$work/$debian/request"
  holds "the adapter answers an editor" inside 'bin/rewind-dap </request | grep supportsStepBack'
  if [ -n "$package" ]; then
    cp "$package" "$work/$debian/rewind.deb"
    inside 'find / -xdev -path /proc -prune -o -print | sort' >"$work/before"
    holds "the package is installed" inside 'apt-get -qq install -y --no-install-recommends /rewind.deb'
    holds "its shell tells why the program is stuck" inside 'printf "run 100\nwhy\nquit\n" | rewind-shell examples/deadlock.go | grep waits'
    holds "its manual pages are there" inside 'zcat /usr/share/man/man1/rewind-hunt.1.gz || dpkg -L rewind | grep man1/rewind-hunt'
    holds "the package is removed" inside 'apt-get -qq purge -y rewind'
    inside 'find / -xdev -path /proc -prune -o -print | sort' >"$work/behind"
    holds "it leaves no file" sh -c "! comm -13 '$work/before' '$work/behind' | grep rewind"
  fi
  rm -rf --one-file-system "${work:?}/$debian"
done
[ "$failed" = 0 ]
