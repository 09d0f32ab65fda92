#!/bin/bash
# Makes lists of calls through session_mut and flush_mut (set, add, flush and finish on a session lent
# by `&mut`), polls what the window holds after each call, and compares numbers, session and storage with
# `replay` on the same lists. The program, calls.rattle, is not proved: `rt try` runs it with the crates'
# sources in a scratch repository, outside this one, by an interpreter and compiled with checks; both must
# print the file `printed`.
set -euo pipefail
trap 'echo "$0: line $LINENO ended with $?" >&2' ERR
cd "$(dirname "$0")/../.."

printed=$PWD/tests/mut/printed
scratch=$(mktemp -d)
trap 'rm -rf "$scratch"' EXIT
mkdir -p "$scratch/crates/mut_calls/src"
for crate in crates/*/; do
  name=$(basename "$crate")
  mkdir -p "$scratch/crates/$name"
  for part in src specs proofs; do
    [ ! -d "$crate/$part" ] || cp -R "$crate/$part" "$scratch/crates/$name/$part"
  done
done
cp tests/mut/calls.rattle "$scratch/crates/mut_calls/src/main.rt"
# What call_list, session_mut and flush_mut use, and they themselves.
sed 's/#.*//' crates.txt >"$scratch/crates.txt"
uses="lists $(sed -n 's/^call_list: *//p' "$scratch/crates.txt")"
echo "mut_calls: $uses call_list session_mut flush_mut" >>"$scratch/crates.txt"
cd "$scratch/crates/mut_calls"
rt try --steps 2000000000 --seconds 300 >"$scratch/out" 2>"$scratch/try.log" || { tail -n 40 "$scratch/try.log" >&2; exit 1; }
# Both runs must answer, and alike.
grep -q '^run=' "$scratch/try.log" && ! grep -q 'runners=1\|run=none' "$scratch/try.log" || { tail -n 5 "$scratch/try.log" >&2; exit 1; }
diff "$printed" "$scratch/out"
echo "mut: the calls on a session lent by &mut leave what replay leaves: $(tr '\n' ' ' <"$scratch/out")"
