#!/bin/bash
# Prints yes where the Rust's source is at hand (at ../shared/docs/src from the repository's root, or
# where ORACLE_SOURCE says), and no where ORACLE_SOURCE=none says on purpose that nothing is to be
# compared with it. A source that is missing otherwise is a failure, so that no comparison is left out
# by accident.
set -euo pipefail
cd "$(dirname "$0")/.."

source=${ORACLE_SOURCE:-../shared/docs/src}
if [ "$source" = none ]; then
  echo "ORACLE_SOURCE=none: NOTHING is compared with the Rust" >&2
  echo no
elif [ -d "$source/src/dag" ]; then
  echo yes
else
  echo "no Rust source at $source: ORACLE_SOURCE names another place, or says none, and then nothing is compared with it" >&2
  exit 1
fi
