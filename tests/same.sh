#!/bin/bash
# tests/same.sh A B: succeeds where two files are equal, of which the first may be - for standard input; else says where they
# differ, in at most 20 lines, and fails. Bytes that are no text are shown as numbers.
set -uo pipefail
first=$1 second=$2
if [ "$first" = - ]; then
  first=$(mktemp) || exit 2
  trap 'rm -f "$first"' EXIT
  cat >"$first"
fi
difference=$(diff "$first" "$second") && exit 0
case $difference in
  "Binary files"*) difference=$(diff <(od -An -v -tu1 -w16 "$first") <(od -An -v -tu1 -w16 "$second")) ;;
esac
{ echo "< $1 and > $2 differ:"; head -n 20 <<<"$difference" | cut -c1-300; } >&2
exit 1
