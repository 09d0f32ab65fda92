#!/bin/bash
# Tests the tests of the ascending profile: linked with the stand-in (stand_in.rs, the reference model behind the same
# interface) they must find no difference, and with each of its faults they must find one, by the commands named with it.
set -euo pipefail
cd "$(dirname "$0")/../.."

fail() { echo "tests/ascending/self_test.sh: $*" >&2; exit 1; }
work=target/ascending
stand_in=$work/stand-in/libascending_replay.so
mkdir -p $work/stand-in
tools/archives replay || fail "no library"
replay=$(realpath target/staticlib/libreplay.a)
rustc --edition 2021 -O -D warnings --crate-type cdylib --crate-name ascending_replay -C link-arg="$replay" -o $stand_in \
  tests/ascending/stand_in.rs
ASCENDING_LIBRARY=$stand_in tests/ascending/run.sh

python3 tests/session/hand_worked.py >$work/hand_worked
lists='lists 1 1500' worked='runs ascending'
faults=0
# noticed FAULT COMMAND..: by each of these commands.
noticed() {
  local fault=$1 command
  shift
  for command in "$@"; do
    ! STAND_IN_FAULT=$fault $work/ascending $command <$work/hand_worked >$work/fault.out 2>&1 || fail "$fault: not noticed by $command"
    grep -q DIFFERENCE $work/fault.out || fail "$fault: a failure of another kind in $command"
    echo "fault $fault: noticed by $command: $(grep -m 1 DIFFERENCE $work/fault.out | cut -c 1-110)"
  done
  faults=$((faults + 1))
}
# The checks: by hand and by random lists, or by these alone.
for fault in 8-before-21 8-for-21 set-{above-accepted,is-not-judged} 21-before-{5,6,7} 18-after-21 \
  inputs-{not-looked-at,not-looked-at-without-outputs,to-the-first-output,to-the-lowest-place,below-the-last-output} \
  outputs-{ascend-from-any-place,ascend-with-gaps,in-any-order} only-the-first-{in,out}put only-the-last-input \
  {9,10}-before-21 w-without-outputs w-with-refused-adds 10-one-early last-place-refused 255-refused 256-accepted; do
  noticed $fault "$worked" "$lists"
done
noticed 6-not-by-the-last "$worked" "$lists" limits
for fault in final-refused lane-lost; do noticed $fault "$lists"; done
for fault in 65535-outputs-refused 65536-outputs-taken; do noticed $fault limits; done
# What is written.
for fault in marks-left-after-{6,21} a-mark-left-after-6 marks-cleared-after-6 refused-writes-{a-slot,a-location,the-order} \
  wrong-{spans,order,tally,rows,marks,locations,answers} beyond-{spans,order,tally,rows,marks,locations} \
  before-{answers,marks} behind-rows returned-{without-64,one-more,accepted}; do
  noticed $fault "$lists"
done
# What is refused as a whole.
for fault in malformed-{writes,accepted} {1,2}-writes 1-before-15 tag-5-is-malformed 2-asks-for-{more,w} \
  {spans,order,tally,rows,marks,locations,answers}-one-short; do
  noticed $fault openings
done
# What another program tells: a number, and what is left at the end.
misled() { # WHAT OPENING SCRIPT FILE
  sed "$3" $4 >$work/misled && ! cmp -s $4 $work/misled || fail "$1: nothing is changed in the text"
  ! $work/ascending runs $2 <$work/misled >$work/fault.out 2>&1 || fail "$1: not noticed"
  grep -q 'DIFFERENCE: .* told otherwise' $work/fault.out || fail "$1: a failure of another kind"
  echo "told otherwise, $1: noticed: $(cut -c 1-110 $work/fault.out)"
  faults=$((faults + 1))
}
misled "8 for 21" ascending 's/^= refused 0,21 /= refused 0,8 /' $work/hand_worked
$work/ascending accepted 1 200 | target/reference/reference runs >$work/accepted
misled "an entry" session 's/^= order 0,0,0,/= order 0,0,1,/' $work/accepted
misled "a row" session 's/^= rows 0,0,0,/= rows 0,0,1,/' $work/accepted
misled "a place" session 's/^= places 0,49152,/= places 0,32768,/' $work/accepted
misled "a tally" session 's/^= tally 1,1$/= tally 1,2/' $work/accepted
misled "a held entry" session 's/^= held 0,0,0/= held 1,0,0/' $work/accepted
echo "ascending: $faults faults of the stand-in and of what is told, each noticed"
