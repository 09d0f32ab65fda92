#!/bin/bash
# Host code, not proved: measures order-large beside the Rust on jobs of 2^20 and 2^22 places, from the file to the printed
# listing, and prints the table. All sides read and print by the same code; every listing is compared.
#
#   bench/large.sh [REPETITIONS]    default 3; the least time counts
set -euo pipefail
cd "$(dirname "$0")/.."

misuse() { echo "bench/large.sh: $*" >&2; exit 2; }
[ $# -le 1 ] || misuse "one number at most"
[[ ${1-3} =~ ^[1-9][0-9]{0,3}$ ]] || misuse "REPETITIONS is a number from 1 to 9999, not $1"
bench/build.sh
cargo build --release --offline --quiet --manifest-path hosts/rust/Cargo.toml
flags=(--edition 2021 -C opt-level=3 -C debug-assertions=off -C overflow-checks=off)
rustc "${flags[@]}" -o target/bench/jobtext --allow dead_code bench/driver/jobtext.rs
RUSTC_BOOTSTRAP=1 rustc "${flags[@]}" -L target/oracle/tree-oracle \
  --extern published=target/bench/libpublished.rlib --extern ordered=target/bench/libordered.rlib \
  --extern witness_order=target/cargo/release/libwitness_order.rlib \
  -o target/bench/large bench/driver/large.rs
python3 bench/large.py "${1-3}"
