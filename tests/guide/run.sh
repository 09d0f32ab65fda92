#!/bin/bash
# Holds the guide alone, through the exported `guide_replay`, to the kept sample of the Rust's answers, to
# the reference model on lists with refused calls and, where the Rust is at hand, to the oracle on all
# short lists and on random ones. GUIDE_RUNS random lists (default 5000; `tests/guide/run.sh full` takes
# 100000), from the seed GUIDE_SEED (default 1).
set -euo pipefail
trap 'echo "$0: line $LINENO ended with $?" >&2' ERR
cd "$(dirname "$0")/../.."

default=5000
[ "${1:-}" != full ] || default=100000
runs=${GUIDE_RUNS:-$default} seed=${GUIDE_SEED:-1}
work=target/guide
fail() { echo "tests/guide/run.sh: $*" >&2; exit 1; }

mkdir -p $work
tools/archives alone_replay || fail "no library"
rustc --edition 2021 -O -D warnings -L target/staticlib -l static=alone_replay -o $work/guide tests/guide/host.rs
tests/reference/build.sh
guide=$work/guide reference=target/reference/reference

$guide refusals

# The kept sample: its guides, whole, and those of the worked placements.
awk '/^session/ { s = 1 } !s { print } /^end$/ { s = 0 }' oracle/sample/guides.txt oracle/sample/placements.txt >$work/kept
$guide runs <$work/kept | tests/same.sh - $work/kept || fail "the kept sample is answered otherwise"
echo "guide: the kept sample: $(grep -cx end $work/kept) lists, no difference"

for file in stdin stdout; do
  python3 tests/guide/vectors.py $file | tests/same.sh - crates/guide_vectors/$file ||
    fail "crates/guide_vectors/$file is not what the kept sample gives"
done
echo "guide: what guide_vectors is run on is what the kept sample gives"

lists=0 pushes=0
# compare NAME ASKED GENERATE..: the lists that `reference GENERATE..` writes, answered by ASKED and here.
compare() {
  local name=$1 asked=$2
  shift 2
  $reference "$@" >$work/$name.runs
  $asked <$work/$name.runs >$work/$name.asked || fail "$name: $asked failed"
  $guide runs <$work/$name.runs >$work/$name.here || fail "$name: the guide failed"
  tests/same.sh $work/$name.asked $work/$name.here || fail "$name: the answers differ (files in $work)"
  lists=$((lists + $(grep -cx end $work/$name.runs)))
  pushes=$((pushes + $(grep -c '^push' $work/$name.runs)))
  rm $work/$name.{runs,asked,here}
}

# in_parts NAME ASKED KIND COUNT: that many random lists, 10000 at a time.
in_parts() {
  local left=$4 part=0 take
  while [ "$left" -gt 0 ]; do
    take=$((left < 10000 ? left : 10000))
    compare "$1" "$2" random "$3" $((seed * 1000 + part)) $take
    left=$((left - take)) part=$((part + 1))
  done
}

in_parts refused "$reference runs" guide-refused $((runs / 4))
echo "guide against the reference model, refused calls among them: $lists lists, $pushes pushes, no difference"

at_hand=$(oracle/at_hand.sh)
if [ $at_hand = no ]; then
  echo "guide: NOT compared with the Rust"
  exit 0
fi
oracle/build.sh
lists=0 pushes=0
compare short target/oracle/oracle exhaustive guide
echo "guide against the Rust, all short lists: $lists lists, $pushes pushes, no difference"
lists=0 pushes=0
in_parts random target/oracle/oracle guide "$runs"
echo "guide against the Rust, random lists: $lists lists, $pushes pushes, no difference"
