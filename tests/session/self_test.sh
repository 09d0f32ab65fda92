#!/bin/bash
# Tests the session's tests: linked with the stand-in (stand_in.rs, the reference model behind the same
# interface) they must find no difference, and with each of its faults they must find one.
set -euo pipefail
cd "$(dirname "$0")/../.."

fail() { echo "tests/session/self_test.sh: $*" >&2; exit 1; }
work=target/session
stand_in=$work/stand-in/libreplay.so
mkdir -p $work/stand-in
rustc --edition 2021 -O --crate-type cdylib --crate-name replay -o $stand_in tests/session/stand_in.rs
SESSION_LIBRARY=$stand_in tests/session/run.sh

target/reference/reference random session-refused 1 200 | target/reference/reference runs >$work/refused.txt
faults=0
for fault in malformed-writes malformed-accepted refused-opening-writes 10-early held-entry k1 quadratic \
  chain-reversed refused-writes-mark refused-writes-slot beyond-spans \
  255-refused 256-accepted 8-bits-of-a-lane 18-before-7 18-after-3 tag-5-lane-ignored lanes-order \
  lane-lost-in-waiting lane-in-accepted row-lane-by-add {held,order,row,cell}-without-lane \
  {beyond,wrong}-{order,tally,rows,pool,locations,waiting,answers,marks} \
  total-{not-raised,once-a-call,next-span,before-opening,is-written,is-accepted,with-waiting,refused,after-flush,after-final} \
  poll-{malformed-writes,malformed-accepted,refused-opening-writes,10-early,held-entry,held-without-lane,chain-reversed,refused-writes-slot} \
  poll-beyond-spans poll-{beyond,wrong}-{order,tally,rows,pool,locations,waiting,answers,marks}; do
  noticed=
  commands=(openings runs limits lanes)
  # those of replay_held by its own test, after every beginning
  case $fault in total-* | poll-*) commands=("held 1 60") ;; esac
  for command in "${commands[@]}"; do
    STAND_IN_FAULT=$fault $work/session $command <$work/refused.txt >$work/fault.out 2>&1 && continue
    grep -q DIFFERENCE $work/fault.out || fail "$fault: a failure of another kind in $command"
    noticed=$command
    break
  done
  [ -n "$noticed" ] || fail "$fault: not noticed"
  echo "fault $fault: noticed by $noticed: $(grep -m 1 DIFFERENCE $work/fault.out | cut -c 1-110)"
  faults=$((faults + 1))
done
echo "session: $faults faults of the stand-in, each noticed"
