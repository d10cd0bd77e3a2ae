#!/bin/sh
# Checks a committed release, without the toolchain: the files start, a plain model answers random sessions as the program does, and
# the program replies as the documents of its own commit show.
#
#     tests/released.sh [FOLDER]      (dist)
set -eu
top=$(cd "$(dirname "$0")/.." && pwd)
folder=$(realpath "${1:-$top/dist}")
work=$(mktemp -d "${TMPDIR:-/var/tmp}/rewind-released.XXXXXX") || exit 2
trap 'git -C "$top" worktree remove --force "$work/source" 2>/dev/null; rm -rf "$work"' EXIT

tar -xJf "$folder"/rewind-*-x86_64-linux.tar.xz -C "$work"
program=$(echo "$work"/rewind-*/bin/rewind)
commit=$(git -C "$top" log --format=%H -1 -- dist/SHA256SUMS)
git -C "$top" worktree add --quiet --detach "$work/source" "$commit"
status=0
echo "the files of the release, started where nothing else is"
"$top/tests/run.sh" --rewind="$program" --release="$folder" tests/test_release.py || status=1
echo "random sessions, answered by a plain model too"
"$top/tests/run.sh" --rewind="$program" --seconds 10 tests/test_second_opinion.py || status=1
echo "what the documents of the release show"
if [ -e "$work/source/tests/run.sh" ]; then
  "$work/source/tests/run.sh" --rewind="$program" tests/test_documents.py || status=1
else
  "$work/source/tests/documents.py" "$program" || status=1
fi
exit "$status"
