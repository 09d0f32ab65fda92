#!/bin/bash
# Host code, not proved: holds the exported call of crate `jobtext`, which finds where a line ends, to a search byte by
# byte, in texts beside pages that cannot be read and beside bytes 10 that are not lent.
#
#   tests/line_end/run.sh           the short form
#   tests/line_end/run.sh --long    ten times as many random texts
#
# LINE_END_SEED chooses the random texts (default 1). LINE_END_LIBRARY names a library to link instead of the one that
# `tools/archives jobtext` proves and writes. Where valgrind is at hand a part of it runs under it.
set -euo pipefail
trap 'echo "$0: line $LINENO ended with $?" >&2' ERR
cd "$(dirname "$0")/../.."

fail() { echo "tests/line_end/run.sh: $*" >&2; exit 1; }
case "${1:-}" in
  '') times=1 ;;
  --long) times=10 ;;
  *) fail "unknown option $1" ;;
esac
seed=${LINE_END_SEED:-1}

work=target/line_end
mkdir -p $work
if [ -z "${LINE_END_LIBRARY:-}" ]; then
  tools/archives jobtext || fail "no library"
fi
library=$(realpath "${LINE_END_LIBRARY:-target/staticlib/libjobtext.a}")
gcc -std=c99 -Wall -Wextra -pedantic -Werror -O2 -g -Ihosts tests/line_end/main.c "$library" \
  -Wl,-rpath,"$(dirname "$library")" -o $work/line_end

$work/line_end texts "$seed" $times
if command -v valgrind >/dev/null; then
  valgrind -q --error-exitcode=9 --partial-loads-ok=no $work/line_end blocks "$seed" || fail "under valgrind"
else
  echo "line_end: no valgrind: NOTHING is run under it"
fi
