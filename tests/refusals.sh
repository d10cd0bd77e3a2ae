#!/usr/bin/env bash
# Refuses each growth in the tests of channels that go on after a refusal (crates/test_parts/src/channels/refusals.rt). The tests
# are built once, without proofs. Of each test the K-th growth is refused, for K = 1, 2, .. until it meets none, and the test
# must pass. It prints how many growths each test has, and the status is 1 where one of them did not pass.
#
#     tests/refusals.sh
set -eu
top=$(cd "$(dirname "${BASH_SOURCE[0]}")/.." && pwd)
work=$(mktemp -d)
trap 'rm -rf "$work"' EXIT
failed=0

# Refuses each growth of one test.
refuse_all() {
  local growth=1 growths=1 said counted
  while [ "$growth" -le "$growths" ]; do
    if ! said=$(REFUSE_LINE=0 REFUSE_AT=$growth REFUSE_COUNT=1 LD_PRELOAD=$work/faults.so "$work/tests" "$1" 2>&1); then
      failed=$((failed + 1))
      printf 'FAILED %s, growth %s refused:\n%s\n' "$1" "$growth" "$said"
    fi
    # A test that is aborted does not tell how many there were.
    counted=$(sed -n 's/.*growths \([0-9]*\)$/\1/p' <<<"$said")
    growths=${counted:-$growths}
    growth=$((growth + 1))
  done
  echo "$1: $growths growths"
}

"$top/tools/build/quick_module.py" --tests test_parts "$work/tests.bc"
"$top/tools/build/quick_program.py" "$work/tests.bc" "$work/tests"
cc -O2 -shared -fPIC -o "$work/faults.so" "$top/tests/hostile/faults.c" -ldl
names=$("$work/tests" --list | sed -n 's/^\(channels::refusals::.*\): test$/\1/p')
[ -n "$names" ] || { echo "refusals: there is no test" >&2; exit 1; }
for name in $names; do
  refuse_all "$name"
done
[ "$failed" -eq 0 ]
