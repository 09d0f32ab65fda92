#!/bin/bash
# Builds the oracle and asks it the runs of the kept sample again: its answers must be those kept.
# The same runs also go through a build with overflow and debug assertions on.
set -euo pipefail
cd "$(dirname "$0")/.."

oracle/build.sh
oracle/build.sh --checked

runs=0 calls=0 different=0
for sample in oracle/sample/*.txt; do
  for oracle in oracle oracle-checked; do
    if ! "target/oracle/$oracle" <"$sample" | diff "$sample" - >target/oracle/difference; then
      echo "oracle/replay.sh: $sample: $oracle answers otherwise:"
      head -n 20 target/oracle/difference
      different=$((different + 1))
    fi
  done
  runs=$((runs + $(grep -cx end "$sample")))
  calls=$((calls + $(grep -cE '^(set|add|push|acquire|flush|final|finalize)( |$)' "$sample")))
done
if [ $different -gt 0 ]; then
  echo "oracle/replay.sh: the kept sample and the oracle differ"
  exit 1
fi
echo "oracle/replay.sh: $runs runs, $calls calls: no difference"
