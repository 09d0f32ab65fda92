#!/bin/bash
# Builds the reference model, target/reference/reference, where it is missing or older than its source. Two who want it
# wait for each other.
set -euo pipefail
cd "$(dirname "$0")/../.."
mkdir -p target/reference
exec 9>target/reference/lock
flock 9
reference=target/reference/reference
if [ ! -x $reference ] || [ -n "$(find tests/reference -name '*.rs' -newer $reference -print -quit)" ]; then
  rustc --edition 2021 -O -o $reference tests/reference/main.rs
fi
