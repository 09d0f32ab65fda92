#!/bin/bash
# Host code, not proved: builds target/bench/bench, the Rust with its registrar as published, the Rust with the ordered copy,
# and this repository's `replay` and `ascending_replay` (once crates.txt lists them), in one program, all optimised. The Rust's
# files are laid out by oracle/build.sh, with bench/driver/sorter.rs in the place of the oracle's runs.
#
#   bench/build.sh          as a release build
#   bench/build.sh --lto    the same with link-time optimisation of all Rust code
set -euo pipefail
cd "$(dirname "$0")/.."

flags=(--edition 2021 -C opt-level=3 -C debug-assertions=off -C overflow-checks=off)
case "${1:-}" in
  '') ;;
  --lto) flags+=(-C lto=fat -C codegen-units=1) ;;
  *) echo "bench/build.sh: unknown option $1" >&2; exit 1 ;;
esac

oracle/build.sh --hashed
oracle/build.sh
mkdir -p target/bench
# The Rust is written for a nightly compiler; its warnings are not ours to mend.
export RUSTC_BOOTSTRAP=1

# Both copies take the small libraries of one tree: two builds of one name do not link into one program.
small=target/oracle/tree-oracle
links=(-L "$small")
for copy in published ordered; do
  from=target/oracle/tree-oracle
  [ $copy = ordered ] || from=target/oracle/tree-oracle-hashed
  tree=target/bench/$copy
  rm -rf "$tree"
  cp -r "$from" "$tree"
  cp bench/driver/tree.rs "$tree/lib.rs"
  cp bench/driver/sorter.rs "$tree/dag/resolvers/runs.rs"
  library="${flags[*]}"
  library=${library/-C lto=fat/}
  # shellcheck disable=SC2086
  rustc --cap-lints allow $library --crate-type rlib --crate-name $copy \
    --extern smallvec="$small/libsmallvec.rlib" --extern itertools="$small/libitertools.rlib" \
    -o "target/bench/lib$copy.rlib" "$tree/lib.rs"
  links+=(--extern $copy="target/bench/lib$copy.rlib")
done

if grep -q '^replay:' crates.txt; then
  tools/archives replay
  links+=(--cfg ours -L target/staticlib -l static=replay)
fi
if grep -q '^ascending_replay:' crates.txt; then
  tools/archives ascending_replay
  links+=(--cfg ascending -l static=ascending_replay)
fi
rustc "${flags[@]}" --check-cfg 'cfg(ours, ascending)' "${links[@]}" --crate-name bench \
  -o target/bench/bench bench/driver/main.rs
echo "bench/build.sh: built target/bench/bench"
