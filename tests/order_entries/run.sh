#!/bin/bash
# Lends a slice of entry structs to `order_append_new` from C and from Rust, and looks that the new
# entries stand there, that nothing else has changed, and that bad arguments are refused.
set -euo pipefail
trap 'echo "$0: line $LINENO ended with $?" >&2' ERR
cd "$(dirname "$0")/../.."

out=target/order_entries
mkdir -p $out
tools/archives order_entries
gcc -std=c11 -O2 -Wall -Wextra -Werror -Ihosts -o $out/lend-c tests/order_entries/lend.c -Ltarget/staticlib -lorder_entries
rustc --edition 2021 -O -D warnings -L target/staticlib -l static=order_entries -o $out/lend-rust \
  tests/order_entries/lend.rs
$out/lend-c
$out/lend-rust
