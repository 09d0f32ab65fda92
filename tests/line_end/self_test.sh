#!/bin/bash
# Host code, not proved: tests the tests of where a line ends: linked with the stand-in (stand_in.c, a search by words
# behind the same interface) they must find no difference, and with each of its faults they must find one.
set -euo pipefail
cd "$(dirname "$0")/../.."

fail() { echo "tests/line_end/self_test.sh: $*" >&2; exit 1; }
work=target/line_end
stand_in=$work/stand-in/libjobtext.so
mkdir -p $work/stand-in
gcc -std=c99 -Wall -Wextra -pedantic -Werror -O2 -shared -fPIC -Ihosts tests/line_end/stand_in.c -o $stand_in
LINE_END_LIBRARY=$stand_in tests/line_end/run.sh

# Other ways that are right: two words at a time, words that overlap, and a carry that leaves the word.
for way in two-words step-of-seven low-ff-7; do
  STAND_IN_FAULT=$way $work/line_end texts 1 1 >$work/fault.out 2>&1 ||
    { cat $work/fault.out >&2; fail "$way: it is right, and a difference is found"; }
done

# noticed NAME COMMAND..: the command finds a difference, which its output has or valgrind's status tells.
noticed() {
  local fault=$1 status=0
  shift
  STAND_IN_FAULT=$fault "$@" >$work/fault.out 2>&1 || status=$?
  [ $status -ne 0 ] || fail "$fault: not noticed"
  [ $status -eq 9 ] || grep -q DIFFERENCE $work/fault.out ||
    { cat $work/fault.out >&2; fail "$fault: a failure of another kind"; }
  echo "fault $fault: noticed: $(grep -m 1 'DIFFERENCE\|Invalid' $work/fault.out | cut -c 1-110)"
  faults=$((faults + 1))
}

faults=0
for fault in {first,second}-of-two-left-out both-of-two-needed step-of-{nine,sixteen} \
  eleven-{in-a-word,among-odd-bytes} high-bit-ignored nothing-added \
  {odd-bytes,last-word,first-byte,last-byte}-left-out reads-{one-past-the-end,one-before-the-text,a-whole-last-word} \
  past-the-end-{itself,from-0} far-start-{wraps,signed} start-of-32-bits count-of-16-bits stops-after-{4096,a-megabyte} \
  none-is-{length-less-1,greatest,start} start-{rounded-down,rounded-up,to-an-aligned-address} {second,last}-of-a-word \
  pair-of-others without-the-start writes-an-end{,-and-back} \
  low-ff-{0..6} low-7e-{0..7} {sum,both}-{ff,7e}-{0..7} tens-0b-{0..7} high-00-{0..7}; do
  noticed $fault $work/line_end texts 1 1
done
# This one reads nothing of another page, and so only valgrind sees it.
if command -v valgrind >/dev/null; then
  noticed reads-aligned-words valgrind -q --error-exitcode=9 --partial-loads-ok=no $work/line_end blocks 1
else
  echo "line_end: no valgrind: a read of aligned words is NOT noticed"
fi
echo "line_end: $faults faults of the stand-in, each noticed"
