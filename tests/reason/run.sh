#!/bin/bash
# Holds the exported calls of crate `reason`, and the program of crate `order_reason`, to answers worked out by hand, to the
# reference model and to what the Rust keeps of who waits; storage and answers to those that the exported call of crate `replay`
# leaves, the answers of jobs to those of crate `host`; and what a reason says of later calls to what later calls do.
#
#   tests/reason/run.sh                  the short form
#   tests/reason/run.sh --long           ten times as many random lists and jobs, and all short lists beside the Rust
#   tests/reason/run.sh --time PLACES    no test: how long replay_reason takes beside replay_calls
#
# REASON_SEED chooses the random lists and jobs (default 1). REASON_LIBRARY names a library to link instead of the one that
# `tools/archives reason` proves and writes; the program is then left out.
set -euo pipefail
trap 'echo "$0: line $LINENO ended with $?" >&2' ERR
cd "$(dirname "$0")/../.."

fail() { echo "tests/reason/run.sh: $*" >&2; exit 1; }
times=1 places=
case "${1:-}" in
  '') ;;
  --long) times=10 ;;
  --time) places=${2:?--time wants a count of places} ;;
  *) fail "unknown option $1" ;;
esac
seed=${REASON_SEED:-1}

work=target/reason
mkdir -p $work
tools/archives replay host || fail "no library"
if [ -z "${REASON_LIBRARY:-}" ]; then
  tools/archives reason || fail "no library"
fi
library=$(realpath "${REASON_LIBRARY:-target/staticlib/libreason.a}")
archives=()
for name in replay host; do archives+=(-C link-arg="$(realpath target/staticlib/lib$name.a)"); done
path=-Wl,-rpath,$(dirname "$library")
rustc --edition 2021 -O -D warnings -C link-arg="$library" "${archives[@]}" -C link-arg="$path" -o $work/reason \
  tests/reason/main.rs
if [ -n "$places" ]; then
  exec $work/reason time "$places"
fi

$work/reason worked
$work/reason openings
$work/reason lists "$seed" $((900 * times))

# What the Rust keeps of who waits: in the kept sample, and where it is at hand in random lists, and with --long in all short ones.
cat oracle/sample/placements.txt oracle/sample/sessions.txt | $work/reason rust
if [ "$(oracle/at_hand.sh)" = yes ]; then
  oracle/build.sh
  tests/reference/build.sh
  [ $times = 1 ] || target/reference/reference exhaustive session | target/oracle/oracle | $work/reason rust
  target/reference/reference random session "$seed" $((1000 * times)) | target/oracle/oracle | $work/reason rust
else
  echo "reason: beside the kept sample NOT compared with the Rust"
fi

$work/reason jobs "$seed" $((2000 * times)) $((1000 * times)) $((3000 * times)) crates/order/stdin docs/example.job \
  examples/*.job examples/refused/*.job

# The stack, beside the figures that host code tells.
told() { sed -n "s/.*needs less than \([0-9]*\) KB of it.*/\1/p" "$1"; }
call=$(told hosts/reason.h)
[ -n "$call" ] && [ "$call" = "$(told hosts/rust/src/reason.rs)" ] ||
  fail "hosts/reason.h and hosts/rust/src/reason.rs tell other stacks of the call"
$work/reason stack "$call"

# A program in C asks for each registration of a job.
gcc -std=c11 -Wall -Wextra -Werror -O2 -Ihosts hosts/reason_example.c "$library" "$path" -o $work/example
printf '%s\n' parallelism=4 places=6 in=3 out=0 in= out=4 in=1 out=2 final=1 >$work/waiting.job
$work/example $work/waiting.job >$work/out && fail "the program in C ends with 0 where registrations wait"
tests/same.sh $work/out <(printf '%s\n' 'registration=0 input=3 place=0' 'registration=2 input=1 place=0') ||
  fail "the program in C prints something else"
echo "reason: two registrations that wait from C"
[ -z "${REASON_LIBRARY:-}" ] || exit 0

# The program.
program=target/bin/order_reason
tools/archives order_reason || fail "no program"
$work/reason program $program "$seed" $((100 * times))
said() { [ -s $work/said ] || fail "$1: nothing on standard error"; }
$program 0 <. 2>$work/said >$work/out || true
said "a directory as standard input"
[ ! -s $work/out ] || fail "a directory as standard input: something was printed"
$program 0 <$work/waiting.job >/dev/full 2>$work/said || true
said "a full device as standard output"
$program 0 <$work/waiting.job >&- 2>$work/said || true
said "no standard output"
echo "reason: a failing read and a failing write are said on standard error"
