#!/bin/bash
# Host code, not proved: measures how fast the end of a line of a job is found and what reading lines whole costs, and prints
# both tables. Beside the proved archive of crate jobtext it takes bench/driver/line_probe.rattle, which has the search byte
# by byte, as a crate in a scratch repository outside this one.
set -euo pipefail
cd "$(dirname "$0")/.."

[ $# = 0 ] || { echo "bench/lines.sh: takes no word" >&2; exit 2; }
tools/archives jobtext
scratch=$(mktemp -d)
trap 'rm -rf "$scratch"' EXIT
mkdir -p "$scratch/crates/line_probe/src" target/bench
uses="rules jobtext jobline jobcalls"
for name in $uses; do
  mkdir -p "$scratch/crates/$name"
  for part in src specs proofs; do
    [ ! -d crates/$name/$part ] || cp -R crates/$name/$part "$scratch/crates/$name/$part"
  done
  grep "^$name:" crates.txt >>"$scratch/crates.txt"
done
cp bench/driver/line_probe.rattle "$scratch/crates/line_probe/src/lib.rt"
echo "line_probe staticlib: $uses" >>"$scratch/crates.txt"
# What a check on this machine has proved of the libraries, rt does not prove again.
(cd "$scratch/crates/line_probe" && rt lib >"$scratch/log" 2>&1) || { tail -n 20 "$scratch/log" >&2; exit 1; }
gcc -std=gnu99 -O2 -Wall -Wextra -Werror -Ihosts -o target/bench/line_ends bench/driver/lines.c \
  target/staticlib/libjobtext.a "$scratch/crates/line_probe/out/libline_probe.a"
target/bench/line_ends examples/*.job
