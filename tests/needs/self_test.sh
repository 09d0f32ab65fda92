#!/bin/bash
# Tests the tests of what a job needs: linked with the stand-in (stand_in.rs, the reference model's reader behind the same
# interface) they must find no difference, and with each of its faults they must find one: by the answers worked out by
# hand, and by what is compared without them.
set -euo pipefail
cd "$(dirname "$0")/../.."

fail() { echo "tests/needs/self_test.sh: $*" >&2; exit 1; }
work=target/needs
stand_in=$work/stand-in/libjobneeds.so
mkdir -p $work/stand-in
rustc --edition 2021 -O -D warnings --crate-type cdylib --crate-name jobneeds -o $stand_in tests/needs/stand_in.rs
NEEDS_LIBRARY=$stand_in tests/needs/run.sh

faults=0
for fault in ceiling-{without-final,without-flushes,one-a-registration,of-17-bits} \
  surplus-{line,empty-line,text} last-line-without-byte-10 no-final wide-numbers reads-up-to-a-refusal \
  {inputs,outputs,flush}-not-counted {bytes,commas,empty-lists,set,final}-counted set-in-the-numbers \
  numbers-to-{4096,one-list} numbers-before-registrations registrations-to-512 flushes-to-4095 \
  {malformed-out,other-line,missing-out}-at-its-in missing-line-at-the-last \
  lane-{line-dropped,before-set,before-flush,before-final,before-out,twice,in-the-head} \
  lane-{in-the-numbers,counted} {missing-in,other-line}-at-its-lane \
  judged-{1,2,4,5,6,8,9,10,12,18} places-judged 16-at-{65536,line-2} 15-before-16 \
  refused-and-written writes-{past,before}-the-four; do
  for command in worked "compare 1 200 200 $work/worked.cases"; do
    ! STAND_IN_FAULT=$fault $work/needs $command >$work/fault.out 2>&1 || fail "$fault: not noticed by $command"
    grep -q DIFFERENCE $work/fault.out || fail "$fault: a failure of another kind in $command"
    echo "fault $fault: noticed by ${command%% *}: $(grep -m 1 DIFFERENCE $work/fault.out | cut -c 1-110)"
  done
  # by the spans released, even if the reader had the same fault
  case $fault in ceiling-without-*)
    grep -q 'more than the ceiling' $work/fault.out || fail "$fault: not noticed by the spans that are released" ;;
  esac
  faults=$((faults + 1))
done
echo "needs: $faults faults of the stand-in, each noticed twice"
