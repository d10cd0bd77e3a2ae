#!/bin/sh
# run.sh [WORD..]: runs pytest with these words, in as many processes as there are processors, by a Python that has what the tests
# want. What is missing of Debian's packages is installed first. The last line is `N passed, M failed`, and what was skipped.
#
#     tests/run.sh -k sessions                    the tests with `sessions` in their names
#     tests/run.sh tests/hostile --full           all cases of a folder, and not those of the short form alone
#     tests/run.sh --rewind=bin/rewind --lf       the tests that failed last, of another program
set -eu
top=$(cd "$(dirname "$0")/.." && pwd)
python=$("$top/tests/python.sh")
cd "$top"
export PYTHONPATH="$top${PYTHONPATH:+:$PYTHONPATH}"
exec "$python" -m pytest -qq -n "${JOBS:-auto}" "$@"
