#!/usr/bin/env bash
# Tries the edits that the gate leaves out, those in crates/NAME/edits: the prover must refuse each for what it means.
#
#     tools/build/edits.sh [NAME ..]      (without a name: every crate that has such edits)
#
# Works in a clone of HEAD below $TMPDIR (/var/tmp where that is not set), which may take as much room as the kept proofs
# (docs/TOOLCHAIN.md). It begins with the proofs that a check of the same files kept on this machine, so run `make` first. A crate
# that was not checked is proved before its edits. $RT_JOBS edits are tried side by side.
#
# The crates come from the lowest up, two at a time. Each has one line, with the number of its edits
#
#     refused       for what they mean
#     by a limit    where the prover gave no verdict
#     by a name     only as a proof names what the edit took away, or has a hole
#     bad           that cannot be applied, read or compiled
#     MISSED        with which the crate is still proved
#     not tried     since a check was killed, for memory in most cases
#
# and below it what was said of each that is not 'refused'. What was said of all of them stands in bin/edits.log. The status is 0
# where each edit is 'refused', and else 1.
set -eu
top=$(cd "$(dirname "${BASH_SOURCE[0]}")/../.." && pwd)
log=$top/bin/edits.log
kinds=(refused "by a limit" "by a name" bad MISSED "not tried")

stop() {
  echo "rewind: $1" >&2
  exit 2
}

# The crates that have edits, of those that are named if some are, the lowest first.
wanted() {
  local name found=()
  for name in "$@"; do
    [ -n "$(compgen -G "$top/crates/$name/edits/*.edit")" ] || stop "crates/$name/edits has no edit"
  done
  while read -r name; do
    [ -n "$(compgen -G "$top/crates/$name/edits/*.edit")" ] || continue
    if [ $# -eq 0 ] || [[ " $* " == *" $name "* ]]; then
      found+=("$name")
    fi
  done < <(grep -o '^[a-z_]*' "$top/crates.txt")
  [ ${#found[@]} -eq 0 ] || printf '%s\n' "${found[@]}"
}

# What the line of an edit says of it, as one of the kinds.
kind_of() {
  case $1 in
    *"(only by a limit"*) echo "by a limit" ;;
    *"(only because a proof file names"* | *": refused, as it must be: "*" hole"*) echo "by a name" ;;
    *": refused, as it must be"*) echo refused ;;
    *": BAD EDIT: "*) echo bad ;;
    *": NOT REFUSED: "*) echo MISSED ;;
    *) echo "not tried" ;;
  esac
}

# A line of counts: the name, how many edits, and how many there are of each kind. The further words are the kinds of the edits.
counts() {
  local line="$1: $(($# - 1)) edits" kind
  for kind in "${kinds[@]}"; do
    line+=", $(printf '%s\n' "${@:2}" | grep -c -x "$kind" || true) $kind"
  done
  echo "$line"
}

# Tells what became of a crate's edits.
tell() {
  local edit label line kind own=() others=()
  for edit in "crates/$1/must-fail"/*.edit; do
    label="$1/$(basename "$edit")"
    line=$(grep -m 1 -F "must-fail $label: " "$said") || line="nothing was said of $label"
    kind=$(kind_of "$line")
    own+=("$kind")
    [ "$kind" = refused ] || others+=("    $kind: ${line#rt: must-fail }")
  done
  all+=("${own[@]}")
  counts "$1" "${own[@]}"
  [ ${#others[@]} -eq 0 ] || printf '%s\n' "${others[@]}"
}

command -v rt >/dev/null || stop "'rt' is not on the path: install the Rattle toolchain first (README.md, 'How to build it')"
names=$(wanted "$@")
mapfile -t names <<<"$names"
[ -n "${names[0]}" ] || stop "no crate has edits outside the gate"
git -C "$top" diff --quiet HEAD -- crates || echo "note: what is not committed is not tried"

room=$(mktemp -d "${TMPDIR:-/var/tmp}/rewind-edits.XXXXXX")
trap 'rm -rf "$room"' EXIT
trap 'exit 130' INT
trap 'exit 143' TERM
export TMPDIR=$room
said=$room/said
git clone --quiet "$top" "$room/clone"
cd "$room/clone"
rm -rf crates/*/must-fail
for name in "${names[@]}"; do
  mv "crates/$name/edits" "crates/$name/must-fail"
done
mkdir -p "$top/bin"
: >"$log"
echo "$(compgen -G "crates/*/must-fail/*.edit" | wc -l) edits of ${#names[@]} crates"
unchecked=()
for name in "${names[@]}"; do
  [ -d "$top/crates/$name/out/incremental" ] || unchecked+=("$name")
done
[ ${#unchecked[@]} -eq 0 ] || echo "note: no check here kept proofs of ${unchecked[*]}, so these may take hours more"

all=()
for ((at = 0; at < ${#names[@]}; at += 2)); do
  [ ! -t 2 ] || echo "trying ${names[*]:at:2} .." >&2
  rt must-fail "${names[@]:at:2}" >"$said" 2>&1 || true
  cat "$said" >>"$log"
  grep -q '^rt: must-fail ' "$said" || tail -5 "$said"
  for name in "${names[@]:at:2}"; do
    tell "$name"
  done
done
echo "$((SECONDS / 60)) minutes; bin/edits.log has what was said of each edit"
counts "in all" "${all[@]}"
! printf '%s\n' "${all[@]}" | grep -q -v -x refused
