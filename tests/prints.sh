#!/bin/bash
# tests/prints.sh WORDS COMMAND..: succeeds where the command does and prints the words. All that it prints is read: `grep -q`
# behind a pipe leaves at the first match, and the command then dies of what it still writes, if it comes to that in time.
set -uo pipefail
words=$1
shift
printed=$("$@") || { echo "$*: ended with $?" >&2; exit 1; }
grep -qF -- "$words" <<<"$printed" || { echo "$*: does not print: $words" >&2; exit 1; }
