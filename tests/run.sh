#!/bin/bash
# Runs every test folder's own run.sh, two at a time, the longest first, and shows what each said and how long it took when
# all have ended. The reference model, which several of them ask, is built before. One that fails stops no other; at
# the end those that failed are named, and the status is not 0. What they say was not done, for want of a
# tool or of the Rust (NOT and NOTHING in capitals), is said once more before.
set -euo pipefail
cd "$(dirname "$0")/.."

logs=target/tests
mkdir -p $logs
rm -f $logs/*

scripts=()
for name in session large hosts job reference guide; do
  scripts+=(tests/$name/run.sh)
done
for script in tests/*/run.sh; do
  [[ " ${scripts[*]} " == *" $script "* ]] || scripts+=($script)
done

# The number of the next script that nobody has taken.
next() {
  local lock number
  exec {lock}>$logs/lock
  flock $lock
  number=$(cat $logs/next 2>/dev/null || echo 0)
  echo $((number + 1)) >$logs/next
  echo "$number"
}

# Takes one script after the other, each with a log of its own.
work() {
  local number name start
  while number=$(next) && [ "$number" -lt ${#scripts[@]} ]; do
    name=$(basename "$(dirname "${scripts[number]}")")
    start=$SECONDS
    if "${scripts[number]}" >"$logs/$name.log" 2>&1; then
      echo "ok, $((SECONDS - start)) s" >"$logs/$name.end"
    else
      echo "failed with status $?" >"$logs/$name.end"
    fi
  done
}

tests/reference/build.sh || true # those that need it say so
work &
work
wait

failed=
for script in "${scripts[@]}"; do
  name=$(basename "$(dirname "$script")")
  end=$(cat $logs/$name.end 2>/dev/null) || end="not run"
  echo "-- $script: $end"
  [ ! -f $logs/$name.log ] || cat $logs/$name.log
  [[ $end == ok* ]] || failed+=" $script"
done
for log in $logs/*.log; do
  sed -n '/\<\(NOT\|NOTHING\)\>/s/^/-- left out: /p' "$log"
done
[ -z "$failed" ] || { echo "tests/run.sh: failed or not run:$failed" >&2; exit 1; }
