#!/bin/sh
# dist_check.sh [--trial]: makes the release twice, in fresh clones, and compares the files byte by byte. Names of folders, umask, time
# zone, language and the user's name differ. Where a release is committed, the clones are of the commit that dist/README.md names, and
# the committed files must be the same; else they are of HEAD. What is proved in this repository need not be proved again: the clones
# begin with its kept proofs. A trial is of HEAD with the quick build, which the clones make from nothing.
set -eu
top=$(cd "$(dirname "$0")/../.." && pwd)
work=$(mktemp -d "${TMPDIR:-/var/tmp}/rewind-dist.XXXXXX")
trap 'rm -rf "$work"' EXIT
target=dist
made=dist
if [ "${1:-}" = --trial ]; then
  target=quick-dist
  made=bin/quick-dist
fi

commit=$(git -C "$top" rev-parse HEAD)
committed=
if [ "$target" = dist ] && git -C "$top" cat-file -e HEAD:dist/SHA256SUMS 2>/dev/null; then
  git -C "$top" archive HEAD dist | tar -x -C "$work"
  committed=$work/dist
  # shellcheck disable=SC2016
  commit=$(sed -n 's/.*from commit `\([0-9a-f]\{40\}\)`.*/\1/p' "$committed/README.md")
fi

# lend FOLDER COPY: copies a folder of kept proofs, whose files are never changed in place, by links where that can be.
lend() {
  cp -rl "$1" "$2" 2>/dev/null || { rm -rf "$2" && cp -r "$1" "$2"; }
}

# make_in NAME UMASK [VARIABLE=VALUE..]: makes the release in the clone of this name.
make_in() {
  clone=$work/$1
  mask=$2
  shift 2
  git clone --quiet --no-checkout "$top" "$clone"
  git -C "$clone" checkout --quiet --detach "$commit"
  mkdir "$clone.temporary"
  for kept in "$top"/crates/*/out; do
    crate=$clone/crates/$(basename "$(dirname "$kept")")
    [ "$target" = dist ] && [ -d "$kept" ] && [ -d "$crate" ] && lend "$kept" "$crate/out"
  done
  (umask "$mask" && env TMPDIR="$clone.temporary" "$@" make -C "$clone" "$target") >"$clone.log" 2>&1 || {
    tail -5 "$clone.log" >&2
    exit 1
  }
}

make_in one 022 TZ=UTC LC_ALL=C.UTF-8 USER=one LOGNAME=one
make_in a_folder_of_a_longer_name 077 TZ=Asia/Kathmandu LC_ALL=C USER=another LOGNAME=another
diff -rq "$work/one/$made" "$work/a_folder_of_a_longer_name/$made"
[ -z "$committed" ] || diff -rq "$committed" "$work/one/$made"
echo "the files of both${committed:+, and those that are committed,} are equal:"
cat "$work/one/$made/SHA256SUMS"
