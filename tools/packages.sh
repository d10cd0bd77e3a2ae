#!/bin/sh
# packages.sh PACKAGE..: installs packages of Debian, and asks for no password. Calls at once wait for each other, since apt
# refuses to run twice. Where apt fails three times, its last words are written to standard error, and the status is 1.
top=$(cd "$(dirname "$0")/.." && pwd)
mkdir -p "$top/bin" || exit 1

as_root() {
  if [ "$(id -u)" = 0 ]; then "$@"; else sudo -n "$@"; fi
}

apt() {
  DEBIAN_FRONTEND=noninteractive as_root apt-get -qq -o DPkg::Lock::Timeout=60 -o Acquire::http::Timeout=20 \
    -o Acquire::https::Timeout=20 "$@" </dev/null 2>&1 9>&-
}

exec 9>"$top/bin/packages.lock"
flock -w 400 9 || { echo "packages: another call did not end in 400 seconds" >&2; exit 1; }
for pause in 10 20 0; do
  said=$(apt update && apt install -y --no-install-recommends "$@") && exit 0
  sleep "$pause"
done
printf '%s\n' "$said" | tail -n 3 >&2
exit 1
