#!/bin/sh
# install.sh [--remove] DESTDIR PREFIX: installs the program, its manual page and documents, the shell, the hunt and the adapter for
# editors under DESTDIR/PREFIX, or removes them. The program is bin/rewind if it is there, else bin/rewind-quick.
set -eu
top=$(cd "$(dirname "$0")/../.." && pwd)

stop() {
  echo "rewind: $1" >&2
  exit 2
}

removes=
if [ "$1" = --remove ]; then
  removes=yes
  shift
fi
[ -n "$2" ] || stop "PREFIX is empty: name a folder, as PREFIX=/usr/local"
to=$1$2
case $to in /*) ;; *) stop "PREFIX must begin with '/', and '$2' does not" ;; esac

if [ -n "$removes" ]; then
  if [ -e "$to/bin/rewind" ] && [ ! -w "$to/bin" ]; then
    stop "cannot write in $to/bin"
  fi
  for name in rewind rewind-shell rewind-hunt rewind-dap; do
    rm -f "$to/bin/$name"
  done
  rm -rf "$to/share/man/man1/rewind.1" "$to/share/doc/rewind" "$to/lib/rewind"
  echo "removed rewind from $to"
  exit 0
fi

program=${REWIND_PROGRAM:-$top/bin/rewind}
kind='the proved program'
if [ ! -x "$program" ]; then
  program=$top/bin/rewind-quick
  kind='the quick build, which is not proved'
fi
[ -x "$program" ] || stop "there is no program: build one by 'make' or 'make quick'"
mkdir -p "$to/bin" "$to/share/man/man1" "$to/lib/rewind/bin" 2>/dev/null || stop "cannot write in $to"
for folder in bin share/man/man1 lib/rewind; do
  [ -w "$to/$folder" ] || stop "cannot write in $to"
done

install -m 755 "$program" "$to/bin/rewind"
install -m 644 "$top/docs/rewind.1" "$to/share/man/man1/rewind.1"
rm -rf "$to/share/doc/rewind"
(cd "$top" && find README.md CHANGELOG.md docs clients/README.md page/README.md -name '*.md' -o -name '*.svg') | while read -r file; do
  install -D -m 644 "$top/$file" "$to/share/doc/rewind/$file"
done
rm -rf "$to/lib/rewind/clients"
for package in "$top"/clients/rewind_*; do
  mkdir -p "$to/lib/rewind/clients/${package##*/}"
  (cd "$package" && find . -name '*.py' -o -name '*.json') | while read -r file; do
    install -D -m 644 "$package/$file" "$to/lib/rewind/clients/${package##*/}/$file"
  done
done
# The clients find the program beside themselves, and are found on the path.
ln -sfn ../../../bin/rewind "$to/lib/rewind/bin/rewind"
for client in rewind-shell rewind-hunt rewind-dap; do
  install -m 755 "$top/clients/$client" "$to/lib/rewind/clients/$client"
  ln -sfn "../lib/rewind/clients/$client" "$to/bin/$client"
done
echo "installed $kind as $to/bin/rewind"
