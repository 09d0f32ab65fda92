#!/bin/bash
# Tests the tests of reasons: linked with the stand-in (stand_in.rs, the reference model behind the same interface) they must
# find no difference, and with each of its faults they must find one: by the answers worked out by hand where those can show
# it, and by what is compared without them.
set -euo pipefail
cd "$(dirname "$0")/../.."

fail() { echo "tests/reason/self_test.sh: $*" >&2; exit 1; }
work=target/reason
stand_in=$work/stand-in/libreason.so
mkdir -p $work/stand-in
tools/archives replay || fail "no library"
replay=$(realpath target/staticlib/libreplay.a)
rustc --edition 2021 -O -D warnings --crate-type cdylib --crate-name reason -C link-arg="$replay" -o $stand_in \
  tests/reason/stand_in.rs
REASON_LIBRARY=$stand_in tests/reason/run.sh

lists='lists 1 300' jobs='jobs 1 300 200 200 examples/refused/still-waiting.job'
faults=0
# noticed FAULT COMMAND: by this command.
noticed() {
  ! STAND_IN_FAULT=$1 $work/reason $2 >$work/fault.out 2>&1 || fail "$1: not noticed by $2"
  grep -q DIFFERENCE $work/fault.out || fail "$1: a failure of another kind in $2"
  echo "fault $1: noticed by ${2%% *}: $(grep -m 1 DIFFERENCE $work/fault.out | cut -c 1-110)"
}
for fault in 19-from-v-on 19-one-too-{late,early} 19-and-20-exchanged 32-bits-of-r 16-bits-of-r registrations-from-1 \
  20-where-{all-inputs-are,the-greatest-is}-tracked 20-at-the-watermark 20-where-it-reads-its-output 20-without-inputs-is-19 \
  a-reason-below-the-watermark lowest-untracked-input lowest-not-promised greatest-untracked-{input,place} \
  {first,last,least}-input the-high-mark after-the-greatest-tracked exchanged radix-of-{23,25}-bits without-64 with-12 \
  input-of-8-bits; do
  noticed $fault worked
  case $fault in
    # places and registrations of random lists are fewer
    16-bits-of-r | input-of-8-bits) ;;
    *) noticed $fault "$lists" && noticed $fault "$jobs" ;;
  esac
  faults=$((faults + 1))
done
for fault in final-not-made ends-at-a-refused-call marks-the-place clears-an-answer writes-the-pool; do
  noticed $fault "$lists"
  faults=$((faults + 1))
done
noticed refused-and-written openings
for fault in surplus-after-{12,an-accepted-final} 12-is-refused accepted-is-0 19-and-20-with-a-line refused-without-a-line \
  refused-is-19 16-at-line-2 line-too-early; do
  noticed $fault worked
  noticed $fault "$jobs"
  faults=$((faults + 1))
done
echo "reason: $((faults + 1)) faults of the stand-in, each noticed"
