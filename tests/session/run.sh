#!/bin/bash
# Holds the exported calls of crate `replay`, and that of crate `summary` on the tally that they leave, to
# the kept sample of the Rust's answers, to the hand-worked cases and to the reference model, and, where
# the Rust is at hand, to the oracle.
#
#   tests/session/run.sh           the short form
#   tests/session/run.sh --long    more than 100,000 lists and two million calls
#
# SESSION_SEED chooses the random lists (default 1). SESSION_LIBRARY names a library to link instead of
# the one that `tools/archives replay` proves and writes.
set -euo pipefail
trap 'echo "$0: line $LINENO ended with $?" >&2' ERR
cd "$(dirname "$0")/../.."

fail() { echo "tests/session/run.sh: $*" >&2; exit 1; }
case "${1:-}" in
  '') random=4000 shapes=500 refused=2000 held=2000 ;;
  --long) random=60000 shapes=20000 refused=50000 held=20000 ;;
  *) fail "unknown option $1" ;;
esac
seed=${SESSION_SEED:-1}

tools/archives summary
library=${SESSION_LIBRARY:-target/staticlib/libreplay.a}
if [ -z "${SESSION_LIBRARY:-}" ]; then
  tools/archives replay
fi
library=$(realpath "$library")
summary=$(realpath target/staticlib/libsummary.a)
path=-Wl,-rpath,$(dirname "$library")

work=target/session
mkdir -p $work
reference=target/reference/reference
tests/reference/build.sh &
rustc --edition 2021 -O -C link-arg="$library" -C link-arg="$summary" -C link-arg="$path" -o $work/session \
  tests/session/main.rs
wait $! || fail "the reference model is not built"

at_hand=$(oracle/at_hand.sh)
if [ $at_hand = yes ]; then
  oracle/build.sh
  answer() { target/oracle/oracle; }
  by="the Rust"
else
  echo "session: NOT compared with the Rust"
  answer() { $reference runs; }
  by="the model"
fi

# told NAME: the runs with answers on standard input, by `replay_calls`.
told() {
  echo "session: $1"
  $work/session runs
}

# in_lanes NAME: the same runs with lanes of 0 to 255 on most adds. The answers know of no lanes, and storage is compared
# with them less the lanes; with the model, and with the same lists in lane 0, it is compared whole.
in_lanes() { $reference label "$seed" | told "$1, in lanes"; }

# A program in C makes one call, J1 of document 01.
gcc -std=c11 -Wall -Wextra -Werror -O2 -Ihosts hosts/replay_example.c "$library" "$path" -o $work/example
$work/example | diff - <(printf '%s\n' \
  'order=0 added=0 accepted=0 parallelism=2 written=0 lane=0' \
  'order=1 added=2 accepted=2 parallelism=2 written=0 lane=0' \
  'order=2 added=1 accepted=1 parallelism=2 written=0 lane=0' \
  'order=3 added=3 accepted=3 parallelism=1 written=4 lane=0') || fail "the program in C prints something else"
echo "session: J1 from C: as document 01 prints it"

# Two at a time: what the other program answers, and what the model answers.
{
  cat oracle/sample/placements.txt oracle/sample/sessions.txt | told "the kept sample of the Rust's answers"
  cat oracle/sample/placements.txt oracle/sample/sessions.txt | in_lanes "the kept sample of the Rust's answers"
  $reference exhaustive session | answer | in_lanes "all short lists, answered by $by"
} >$work/first.out 2>&1 &
first=$!
trap 'kill $first 2>/dev/null || true' EXIT
{
  python3 tests/session/hand_worked.py | told "the hand-worked cases"
  echo "session: openings"
  $work/session openings
  echo "session: lanes"
  $work/session lanes
  echo "session: what the window holds, by replay_held"
  $work/session held "$seed" $held
  echo "session: limits"
  timeout 300 $work/session limits
  $reference random session "$seed" $random | answer | in_lanes "random lists, answered by $by"
  $work/session shapes "$seed" $shapes | answer | in_lanes "deep cascades, waiting, overfull spans, answered by $by"
  $reference random session-refused "$seed" $refused | $reference runs |
    told "random lists with refused calls, answered by the model"
} >$work/second.out 2>&1 || { cat $work/second.out; fail "a difference, or a failure"; }
wait $first || { cat $work/first.out; fail "a difference, or a failure"; }
cat $work/first.out $work/second.out
awk '/^session: / { rust = /the Rust/ }
  / lists \(/ { for (i = 1; i < NF; i++) if ($(i + 1) == "calls,") calls = $i
    all_lists += $1; all_calls += calls
    if (rust) { rust_lists += $1; rust_calls += calls } }
  END { printf "session: 0 differences in %d lists with %d calls; the Rust answered %d lists with %d calls\n",
    all_lists, all_calls, rust_lists, rust_calls }' $work/{first,second}.out
