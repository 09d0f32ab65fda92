#!/bin/bash
# Holds the exported call of crate `jobneeds` to answers worked out by hand, to the reference model's own reader and to what
# running the same jobs comes to, by the exported call of crate `host` and in the model; its ceiling also to the spans that
# the Rust released.
#
#   tests/needs/run.sh           the short form
#   tests/needs/run.sh --long    ten times as many random jobs
#
# NEEDS_SEED chooses the random jobs (default 1). NEEDS_LIBRARY names a library to link instead of the one that
# `tools/archives jobneeds` proves and writes.
set -euo pipefail
trap 'echo "$0: line $LINENO ended with $?" >&2' ERR
cd "$(dirname "$0")/../.."

fail() { echo "tests/needs/run.sh: $*" >&2; exit 1; }
case "${1:-}" in
  '') times=1 ;;
  --long) times=10 ;;
  *) fail "unknown option $1" ;;
esac
seed=${NEEDS_SEED:-1}

work=target/needs
mkdir -p $work
tools/archives host || fail "no library"
if [ -z "${NEEDS_LIBRARY:-}" ]; then
  tools/archives jobneeds || fail "no library"
fi
library=$(realpath "${NEEDS_LIBRARY:-target/staticlib/libjobneeds.a}")
host=$(realpath target/staticlib/libhost.a)
path=-Wl,-rpath,$(dirname "$library")
reference=target/reference/reference
tests/reference/build.sh &
rustc --edition 2021 -O -D warnings -C link-arg="$library" -C link-arg="$host" -C link-arg="$path" -o $work/needs \
  tests/needs/main.rs
wait $! || fail "the reference model is not built"

$work/needs worked
$reference needs <crates/order/stdin | diff - <(printf '%s\n' 'needs 4 7 0 40' 'used 4 7 0 34') || fail "J1 by the model"
python3 tests/needs/hand_worked.py >$work/worked.cases
$work/needs compare "$seed" $((2000 * times)) $((5000 * times)) $work/worked.cases crates/order/stdin docs/example.job \
  examples/*.job examples/refused/*.job

# The ceiling beside the spans that the Rust released.
cat oracle/sample/placements.txt oracle/sample/sessions.txt | $reference label "$seed" | $work/needs runs
at_hand=$(oracle/at_hand.sh)
if [ $at_hand = yes ]; then
  oracle/build.sh
  $reference random session "$seed" $((2000 * times)) | target/oracle/oracle | $reference label "$seed" | $work/needs runs
else
  echo "needs: NOT compared with the Rust, but for the kept sample of its answers"
fi

# The stack, beside the figures that host code tells.
told() { sed -n "s/.*needs less than \([0-9]*\) KB of it.*/\1/p" "$1"; }
call=$(told hosts/needs.h)
[ -n "$call" ] && [ "$call" = "$(told hosts/rust/src/needs.rs)" ] ||
  fail "hosts/needs.h and hosts/rust/src/needs.rs tell other stacks of the call"
$work/needs stack "$call"
