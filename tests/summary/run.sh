#!/bin/bash
# Holds the exported call of crate `summary` to two other computations, on tallies at the limits and one
# past them, and on random ones; a refused call must write nothing. SUMMARY_SEED chooses the random ones
# (default 1), SUMMARY_LIBRARY names a library to link instead of the one that `tools/archives summary`
# proves and writes. Beside the Rust's own summaries it is held by tests/session/run.sh.
set -euo pipefail
trap 'echo "$0: line $LINENO ended with $?" >&2' ERR
cd "$(dirname "$0")/../.."

fail() { echo "tests/summary/run.sh: $*" >&2; exit 1; }
work=target/summary
mkdir -p $work
if [ -z "${SUMMARY_LIBRARY:-}" ]; then
  tools/archives summary || fail "no library"
fi
library=$(realpath "${SUMMARY_LIBRARY:-target/staticlib/libsummary.a}")
rustc --edition 2021 -O -D warnings -C link-arg="$library" -o $work/summary tests/summary/main.rs
$work/summary edges
$work/summary random "${SUMMARY_SEED:-1}" 3000

# The header in C and C++.
gcc -std=c99 -pedantic -Wall -Wextra -Werror -O2 -Ihosts tests/summary/host.c "$library" -o $work/host
$work/host
if command -v g++ >/dev/null; then
  g++ -std=c++11 -pedantic -Wall -Wextra -Werror -O2 -Ihosts -x c++ tests/summary/host.c -x none "$library" -o $work/host-cpp
  $work/host-cpp
fi
