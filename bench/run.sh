#!/bin/bash
# Host code, not proved: the benchmark in one command, which builds, measures all sides on the same lists of calls, prints the
# tables and draws the plots. What is measured is kept as target/bench/times.tsv and counts.tsv.
#
#   bench/run.sh          a few minutes
#   bench/run.sh --full   V up to 2^22 on all sides (2^24 on this repository's), 100,000 waiting: ten minutes
#   bench/run.sh --lto    the Rust with link-time optimisation; can stand beside --full
#   bench/run.sh --plots FOLDER   writes the plots there; else they go to target/bench
set -euo pipefail
cd "$(dirname "$0")/.."

full= lto=() plots=target/bench
while [ $# -gt 0 ]; do
  case "$1" in
    --full) full=yes ;;
    --lto) lto=(--lto) ;;
    --plots) plots=${2:?--plots wants a folder}; shift ;;
    *) echo "bench/run.sh: unknown option $1" >&2; exit 1 ;;
  esac
  shift
done

bench/build.sh "${lto[@]}"
bench=target/bench/bench
times=target/bench/times.tsv
counts=target/bench/counts.tsv
own=$($bench sides | cut -s -d, -f3-) # this repository's

# time REPETITIONS NAME P SIZE WAITING [SIDES]
time_case() { $bench time "$1" "${6:-$($bench sides "$2" "$3" "$4" "$5")}" "$2" "$3" "$4" "$5" >>$times; }

# Instructions of one run, by callgrind, between entry and exit of `measured`.
instructions() {
  valgrind --tool=callgrind --callgrind-out-file=target/bench/callgrind.out --collect-atstart=no \
    --toggle-collect=measured $bench once "$@" >/dev/null 2>target/bench/valgrind.log
  awk '/^summary:/ { print $2 }' target/bench/callgrind.out
}

# count NAME P SIZE WAITING
count_case() {
  local side sides
  sides=$($bench sides "$@")
  for side in ${sides//,/ }; do
    printf '%s\t%s\t%s\t%s\t%s\t%s\t%s\n' "$1" "$2" "$3" "$4" "$side" \
      "$(instructions "$side-opening" "$@")" "$(instructions "$side" "$@")" >>$counts
  done
}

: >$times
: >$counts
echo "bench/run.sh: times"
for name in forward poseidon chain independent; do
  for p in 64 1024 4096; do
    time_case 5 $name $p 65536 0
  done
  time_case 3 $name 1024 262144 0
  time_case 3 $name 1024 1048576 0
  [ -z "$full" ] || time_case 3 $name 1024 4194304 0
  [ -z "$full" ] || [ -z "$own" ] || time_case 1 $name 1024 16777216 0 "$own"
done
for waiting in 10 100 1000 10000 ${full:+100000}; do
  for others in 0 4096; do
    time_case $((waiting > 1000 ? 1 : 3)) delayed 1024 $others $waiting
    # Beside so many the Rust takes seconds and is run once. Ours takes milliseconds: the least of nine runs replaces the one
    [ $waiting -le 1000 ] || [ -z "$own" ] || time_case 9 delayed 1024 $others $waiting ours
  done
done
for waiting in 65536 262144; do
  time_case 3 one-place 1024 0 $waiting
done
for waiting in 1024 4096 ${full:+16384}; do
  time_case 1 reversed 1024 0 $waiting
done
[ -z "$own" ] || time_case 1 reversed 1024 0 1048576 ours

if command -v valgrind >/dev/null; then
  echo "bench/run.sh: instructions"
  for name in forward poseidon chain independent; do
    for p in 64 1024 4096; do
      count_case $name $p 65536 0
    done
  done
  for waiting in 10 100 1000 ${full:+10000}; do
    for others in 0 4096; do
      count_case delayed 1024 $others $waiting
    done
  done
  count_case one-place 1024 0 65536
  count_case reversed 1024 0 1024
else
  echo "bench/run.sh: no valgrind, so no instructions are counted"
fi

mkdir -p "$plots"
python3 bench/report.py $times $counts
python3 bench/plot.py $times "$plots"
