#!/bin/bash
# Tests the reference model: against the kept sample and the hand-worked cases, and, where the Rust is
# at hand, against the oracle on all short call lists and on REFERENCE_RUNS random sessions (default
# 30000) and half as many random guides. The seed is REFERENCE_SEED (default 1). Sessions have lanes, which
# the Rust does not know: it is asked without them, and its answers are compared less the lanes.
set -euo pipefail
trap 'echo "$0: line $LINENO ended with $?" >&2' ERR
cd "$(dirname "$0")/../.."

runs=${REFERENCE_RUNS:-30000} seed=${REFERENCE_SEED:-1}
work=target/reference
fail() { echo "tests/reference/run.sh: $*" >&2; exit 1; }

tests/reference/build.sh
reference=$work/reference

# Answers of runs with lanes, less the lanes.
without_lanes() { sed -E -f tests/reference/without_lanes.sed; }

for sample in placements sessions guides; do
  $reference runs <oracle/sample/$sample.txt | diff oracle/sample/$sample.txt - >$work/difference ||
    { head -n 20 $work/difference; fail "the model and the kept sample differ in $sample.txt"; }
done
for sample in placements sessions; do
  $reference label "$seed" <oracle/sample/$sample.txt >$work/labelled
  tests/prints.sh '= order-lanes ' $reference runs <$work/labelled || fail "no lanes in $sample.txt"
  $reference runs <$work/labelled | without_lanes | diff oracle/sample/$sample.txt - >$work/difference ||
    { head -n 20 $work/difference; fail "with lanes, the model and the kept sample differ in $sample.txt"; }
done
echo "model: the kept sample's sessions and guides, and its sessions with lanes: no difference"

python3 tests/reference/check.py placements
python3 tests/reference/check.py runs $reference runs
python3 tests/reference/check.py lanes $reference runs
python3 tests/reference/check.py jobs $reference job
python3 tests/reference/check.py floors $reference job
python3 tests/reference/check.py host $reference host

at_hand=$(oracle/at_hand.sh)
if [ $at_hand = no ]; then
  echo "model: NOT compared with the Rust"
  exit 0
fi
oracle/build.sh

# compare NAME GENERATE..: the lists that `reference GENERATE..` writes, in lanes where they are sessions, by the oracle, which
# does not see the lanes, and by the model.
compare() {
  local name=$1 count
  shift
  $reference "$@" | $reference label "$seed" >$work/$name.runs
  without_lanes <$work/$name.runs | target/oracle/oracle >$work/$name.oracle || fail "$name: the oracle failed"
  $reference runs <$work/$name.runs | without_lanes >$work/$name.model || fail "$name: the model failed"
  diff $work/$name.oracle $work/$name.model >$work/$name.difference ||
    { head -n 20 $work/$name.difference; fail "$name: oracle and model differ (files in $work)"; }
  count=$(grep -cx end $work/$name.model)
  [ "$count" -gt 0 ] || fail "$name: no runs"
  rm $work/$name.{runs,oracle,model,difference}
  echo "model against the Rust: $name: $count lists, no difference"
}

# Two at a time: random sessions beside all the rest.
trap 'kill $(jobs -p) 2>/dev/null || true' EXIT
compare sessions random session "$seed" "$runs" &
sessions=$!
compare short-sessions exhaustive session
compare short-guides exhaustive guide
compare guides random guide "$seed" $((runs / 2))
wait $sessions || fail "sessions: failed"

$reference jobs "$seed" 2000 >$work/random.cases
python3 tests/reference/listings.py $work/random.cases target/oracle/oracle
