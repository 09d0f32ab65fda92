#!/bin/bash
# Host code, not proved: writes into FILE what the program `order` and the exported calls `order_job` and `job_needs` answer
# to every job that the tests of jobs have, a line for each job (answers.rs says what stands in it). Nothing is judged:
# of a change that must change no answer, the files before and after it are compared by cmp.
#
#   tests/job/answers.sh FILE
#
# JOB_SEED chooses the random jobs (default 1). ANSWERS_WITHOUT=KEY leaves the line or the field KEY= out of every job and
# every listing, for a change that is about it: the files then show whether anything else has changed. ANSWERS_TARGET
# names the target/ of another checkout, whose archives and program are asked about the jobs of this one, and are taken as
# they are.
set -euo pipefail
trap 'echo "$0: line $LINENO ended with $?" >&2' ERR

fail() { echo "tests/job/answers.sh: $*" >&2; exit 1; }
[ $# = 1 ] || fail "one FILE is needed"
file=$(realpath "$1")
target=${ANSWERS_TARGET:+$(realpath "$ANSWERS_TARGET")}
cd "$(dirname "$0")/../.."

work=target/job
mkdir -p $work
if [ -z "$target" ]; then
  target=$PWD/target
  tools/archives host jobneeds order || fail "no library or no program"
fi
rustc --edition 2021 -O -D warnings -C link-arg="$target/staticlib/libhost.a" \
  -C link-arg="$target/staticlib/libjobneeds.a" -o $work/answers tests/job/answers.rs

# The hand-worked jobs, those for the call and for the floor too; importing the first prints its own.
python3 -B - >$work/hand-worked.cases <<'PYTHON'
import sys
sys.path.insert(0, "tests/needs")
from hand_worked import escaped, worked
for _, job, *_ in worked.HOSTS + worked.FLOORS:
    print(f"job {escaped(job)}")
PYTHON
tests/reference/build.sh
target/reference/reference floors >$work/floors.cases
$work/answers "$file" "$target/bin/order" "${JOB_SEED:-1}" 4000 20000 $work/hand-worked.cases $work/floors.cases \
  crates/order/stdin docs/example.job examples/*.job examples/refused/*.job >$work/answers.log
tail -n 1 $work/answers.log
