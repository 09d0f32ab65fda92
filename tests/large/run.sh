#!/bin/bash
# Tests the crate for hosts in Rust (hosts/rust) and its program order-large, which are not proved: the
# crate's own tests, among them order-large's reading and printing beside the proved order_job on
# thousands of jobs; the program beside the proved program order; and, where the Rust is at hand, its
# listings of jobs of thousands of places beside the oracle's; and the commands quoted in docs/LARGE.md.
#
# LARGE_SEED chooses the random jobs (default 1), LARGE_JOBS and LARGE_BYTES how many of them and of
# random bytes the crate's test takes. The archives are those in the folder that ORDER_LIBS names, else
# in target/staticlib, brought up to date by tools/archives.
set -euo pipefail
trap 'echo "$0: line $LINENO ended with $?" >&2' ERR
cd "$(dirname "$0")/../.."

fail() { echo "tests/large/run.sh: $*" >&2; exit 1; }
work=target/large
mkdir -p $work
[ -z "${ORDER_LIBS:-}" ] || export ORDER_LIBS=$(realpath "$ORDER_LIBS")
export LARGE_SEED=${LARGE_SEED:-1}

[ -n "${ORDER_LIBS:-}" ] || tools/archives
manifest=hosts/rust/Cargo.toml
cargo test --offline --quiet --manifest-path $manifest -- --show-output >$work/cargo.log 2>&1 ||
  { tail -n 60 $work/cargo.log >&2; fail "cargo test"; }
awk '/^test result: ok/ { passed += $4; parts += 1 } END {
  printf "large: cargo test: %d tests and examples in %d parts passed\n", passed, parts; exit !passed }' $work/cargo.log
grep '^large: ' $work/cargo.log || fail "cargo test compared nothing"

# A folder without archives is said plainly.
for folder in "$PWD/$work" some/where; do
  ! ORDER_LIBS=$folder CARGO_TARGET_DIR=$work/none cargo build --offline --manifest-path $manifest 2>$work/said ||
    fail "ORDER_LIBS=$folder: built without archives"
  grep -Eq 'witness-order: (no libhost.a, .* in |ORDER_LIBS must be an absolute path)' $work/said ||
    { cat $work/said >&2; fail "ORDER_LIBS=$folder: nothing is said"; }
done
# Without ORDER_LIBS the build has the archives brought up to date by tools/archives of its repository.
copy=$work/copy
rm -rf $copy && mkdir -p $copy/{hosts,tools} && cp -r hosts/rust $copy/hosts/
printf '%s\n' '#!/bin/sh' 'echo "asked for $*"' 'exit 1' >$copy/tools/archives
chmod +x $copy/tools/archives
! env -u ORDER_LIBS CARGO_TARGET_DIR=$work/none cargo build --offline --manifest-path $copy/hosts/rust/Cargo.toml 2>$work/said ||
  fail "built without tools/archives"
grep -q 'witness-order: asked for host jobneeds jobtext replay ascending_replay reason alone_replay order_entries summary' $work/said ||
  { cat $work/said >&2; fail "tools/archives is not asked"; }
echo "large: missing archives are said, tools/archives is asked for them"

cargo build --release --offline --quiet --manifest-path $manifest || fail "cargo build"
large=target/cargo/release/order-large

# The program beside the program.
tools/archives order || fail "no order"
reference=target/reference/reference
tests/reference/build.sh
$reference jobs "$LARGE_SEED" 200 >$work/random.cases
$reference floors >$work/floors.cases
python3 tests/large/compare.py order $large target/bin/order $work/random.cases $work/floors.cases
python3 tests/reference/check.py floors $large

# Jobs of thousands of places, of each kind that the benchmark has.
rustc --edition 2021 -O --allow dead_code -o $work/jobtext bench/driver/jobtext.rs
rm -f $work/*.job
# The examples' generator, tools/circuit.py, and the benchmark's make the same jobs.
while read -r job words; do
  $work/jobtext $words | tests/same.sh - examples/$job || fail "the benchmark's '$words' is not examples/$job"
done <<'END'
poseidon.job poseidon 8 490 0
wide.job independent 16 60 0
backwards.job reversed 4 0 24
END
echo "large: three jobs of examples/ are the benchmark's too"
# Those of P = 70 are in lanes as well, which the oracle does not see.
for name in forward poseidon chain independent delayed one-place reversed; do
  for p in 3 70 1024; do
    $work/jobtext $name $p 3000 1500 >$work/$name-$p.job
  done
  awk '/^in=/ { print "lane=" n++ * 37 % 256 } 1' $work/$name-70.job >$work/$name-lanes.job
done
at_hand=$(oracle/at_hand.sh)
if [ $at_hand = yes ]; then
  oracle/build.sh
  python3 tests/large/compare.py cases $large $work/*.job >$work/large.cases
  python3 tests/reference/listings.py $work/large.cases target/oracle/oracle
else
  echo "large: NOT compared with the Rust"
fi

# The greatest session, from a pipe; and a long job on a terminal.
printf '%s\n' parallelism=64999 places=16777216 set=16777215 in= out=0 final=1 | $large >$work/greatest
diff $work/greatest <(printf '%s\n' status=0 entries=1 places=1 floor=0 median=1 \
  'order=0 added=0 accepted=0 parallelism=1 written=1 lane=0') || fail "the greatest session"
$work/jobtext independent 1000 1100000 0 >$work/long.job
python3 tests/large/compare.py terminal $large $work/long.job
rm $work/*.job
echo "large: the greatest P and V: as it should be"

python3 .ci/transcripts.py docs/LARGE.md
