#!/bin/bash
# Holds the exported call of crate `ascending_replay` to cases worked out by hand, to the reference model, to the Rust on the
# calls that it accepts, and to what the exported call of crate `replay` leaves of these.
#
#   tests/ascending/run.sh           the short form
#   tests/ascending/run.sh --long    ten times as many random lists
#
# ASCENDING_SEED chooses the random lists (default 1). ASCENDING_LIBRARY names a library to link instead of the one that
# `tools/archives ascending_replay` proves and writes.
set -euo pipefail
trap 'echo "$0: line $LINENO ended with $?" >&2' ERR
cd "$(dirname "$0")/../.."

fail() { echo "tests/ascending/run.sh: $*" >&2; exit 1; }
times=1
case "${1:-}" in
  '') ;;
  --long) times=10 ;;
  *) fail "unknown option $1" ;;
esac
seed=${ASCENDING_SEED:-1}

work=target/ascending
mkdir -p $work
tools/archives replay summary || fail "no library"
if [ -z "${ASCENDING_LIBRARY:-}" ]; then
  tools/archives ascending_replay || fail "no library"
fi
library=$(realpath "${ASCENDING_LIBRARY:-target/staticlib/libascending_replay.a}")
archives=()
for name in replay summary; do archives+=(-C link-arg="$(realpath target/staticlib/lib$name.a)"); done
path=-Wl,-rpath,$(dirname "$library")
rustc --edition 2021 -O -D warnings -C link-arg="$library" "${archives[@]}" -C link-arg="$path" -o $work/ascending \
  tests/ascending/main.rs

python3 tests/session/hand_worked.py | $work/ascending runs ascending
$work/ascending openings
$work/ascending limits
$work/ascending lists "$seed" $((10000 * times))

# The accepted calls of other lists, answered by the Rust where it is at hand; lanes are put on them afterwards.
tests/reference/build.sh
reference=target/reference/reference
if [ "$(oracle/at_hand.sh)" = yes ]; then
  oracle/build.sh
  answer() { target/oracle/oracle; }
else
  echo "ascending: NOT compared with the Rust"
  answer() { $reference runs; }
fi
$work/ascending accepted $((seed + 1)) $((2000 * times)) | answer | $reference label "$seed" | $work/ascending runs session

# A program in C: J1 of document 01, with two breaches.
gcc -std=c11 -Wall -Wextra -Werror -O2 -Ihosts hosts/ascending_example.c "$library" "$path" -o $work/example
$work/example >$work/out || fail "the program in C ends with $?"
tests/same.sh $work/out <(printf '%s\n' 'call 4 breaches the profile' 'call 5 breaches the profile' && grep ^order= crates/order/stdout) ||
  fail "the program in C prints something else"
echo "ascending: J1 from C: as document 01 prints it, and two breaches"
