#!/bin/bash
# Holds the program `order` and the exported call of crate `host` to the hand-worked jobs and to the
# reference model: every refusal that a job can reach, malformed jobs of every form, the boundaries of
# each limit, random jobs, damaged copies of them and random bytes.
#
#   tests/job/run.sh           the short form
#   tests/job/run.sh --long    ten times as many random jobs
#
# JOB_SEED chooses the random jobs (default 1). Where valgrind is at hand a part of it runs under it.
set -euo pipefail
trap 'echo "$0: line $LINENO ended with $?" >&2' ERR
cd "$(dirname "$0")/../.."

fail() { echo "tests/job/run.sh: $*" >&2; exit 1; }
case "${1:-}" in
  '') times=1 ;;
  --long) times=10 ;;
  *) fail "unknown option $1" ;;
esac
seed=${JOB_SEED:-1}

work=target/job
mkdir -p $work
tools/archives host order || fail "no library or no program"
library=$(realpath target/staticlib/libhost.a)
order=target/bin/order

reference=target/reference/reference
tests/reference/build.sh
gcc -std=c11 -Wall -Wextra -Werror -O2 -Ihosts hosts/order_example.c "$library" -o $work/example
gcc -std=c11 -Wall -Wextra -Werror -O2 -g -Ihosts tests/job/host.c "$library" -o $work/host
rustc --edition 2021 -O -D warnings -C link-arg="$library" -o $work/job tests/job/main.rs

# J1 of document 01, by the program and by the program in C.
diff crates/order/stdout <($order <crates/order/stdin) || fail "J1 by the program"
diff crates/order/stdout <($work/example <crates/order/stdin) || fail "J1 from C"
echo "job: J1 by the program and from C: as document 01 prints it"

# The hand-worked jobs and random ones, by program and call, each job in a process of its own.
$reference jobs "$seed" $((400 * times)) >$work/random.cases
python3 tests/reference/check.py jobs $order
python3 tests/reference/check.py jobs $work/random.cases $order
python3 tests/reference/check.py host $work/host
python3 tests/reference/check.py host $work/random.cases $work/host

# The floor: worked out by hand, and of orders around the lengths P and 2P, with flushes around the last entry that counts.
$reference floors >$work/floors.cases
python3 tests/reference/check.py floors $order
python3 tests/reference/check.py jobs $work/floors.cases $order
python3 tests/reference/check.py host $work/floors.cases $work/host

# The same jobs' listings, made from the oracle's dump.
at_hand=$(oracle/at_hand.sh)
if [ $at_hand = yes ]; then
  oracle/build.sh
  python3 tests/reference/listings.py $work/random.cases target/oracle/oracle
  python3 tests/reference/listings.py $work/floors.cases target/oracle/oracle
else
  echo "job: NOT compared with the Rust"
fi

# From Rust, on a thread with 2 MB of stack, beside the model.
$work/job edges
$work/job jobs "$seed" $((4000 * times))
$work/job bytes "$seed" $((20000 * times))
$work/job lanes "$seed" $((2000 * times))

# The stack, beside the figures that host code and documents tell.
told() { sed -n "s/.*needs less than \([0-9]*\) KB of $1.*/\1/p" "$2"; }
call=$(told it hosts/order.h)
[ -n "$call" ] && [ "$call" = "$(told it hosts/rust/src/job.rs)" ] || fail "hosts/order.h and hosts/rust/src/job.rs tell other stacks of the call"
$work/job stack "$call"
program=$(told stack docs/JOB.md)
[ -n "$program" ] && [ "$program" -le "$(sed -n 's/^need=//p' hosts/order-job)" ] || fail "docs/JOB.md tells no stack of the program, or more than order-job gives it"
tools/circuit.py chain 512 --parallelism 64 >$work/chain.job
tools/circuit.py backwards 511 --parallelism 1 >$work/backwards.job
for job in crates/order/stdin $work/chain.job $work/backwards.job; do
  (ulimit -Ss "$program"; exec env -i $order <$job >$work/out) || fail "$job: $program KB of stack do not suffice for the program"
  [ "$(head -n 1 $work/out)" = status=0 ] || fail "$job is not accepted"
done
echo "job: stack: $program KB suffice for the program"

# Standard input or output that fails is said on standard error.
said() { [ -s $work/said ] || fail "$1: nothing on standard error"; }
$order <. 2>$work/said >$work/out || true
said "a directory as standard input"
[ ! -s $work/out ] || fail "a directory as standard input: something was printed"
$order <crates/order/stdin >/dev/full 2>$work/said || true
said "a full device as standard output"
$order <crates/order/stdin >&- 2>$work/said || true
said "no standard output"
echo "job: a failing read and a failing write are said on standard error"

if command -v valgrind >/dev/null; then
  $reference jobs "$((seed + 1))" 12 >$work/grind.cases
  python3 tests/reference/check.py jobs $work/grind.cases valgrind -q --error-exitcode=9 $order
  python3 tests/reference/check.py host $work/grind.cases valgrind -q --error-exitcode=9 $work/host
  echo "job: 12 jobs by program and call under valgrind: no error"
else
  echo "job: no valgrind: NOTHING is run under it"
fi
