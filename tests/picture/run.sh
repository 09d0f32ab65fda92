#!/bin/bash
# The pictures of docs/GUARANTEE.md are what their commands draw, and tools/picture.py says plainly what
# it can't draw. Needs target/bin/order; order-large is built if it is missing.
set -euo pipefail
trap 'echo "$0: line $LINENO ended with $?" >&2' ERR
cd "$(dirname "$0")/../.."

order=target/bin/order
fail() { echo "tests/picture: $*" >&2; exit 1; }
tools/archives order || fail "no order"

$order <docs/example.job | tools/picture.py --svg docs/example.job | diff docs/example.svg - ||
  fail "docs/example.svg is not what its command draws"
drawn=$($order <crates/order/stdin | tools/picture.py)
[[ $(<docs/GUARANTEE.md) == *"$drawn"* ]] || { echo "$drawn" >&2; fail "docs/GUARANTEE.md has another picture of J1 than this"; }

# The larger one: its commands, with the pictures in another folder.
large=target/cargo/release/order-large
[ -x $large ] || cargo build --release --offline --quiet --manifest-path hosts/rust/Cargo.toml || fail "order-large cannot be built"
mkdir -p target/picture
commands=$(awk '/^## / { larger = /^## A larger one/ } larger && /^```/ { code = !code; next } larger && code' docs/GUARANTEE.md)
[ "$(grep -c . <<<"$commands")" = 4 ] || fail "docs/GUARANTEE.md has not four commands for the larger one"
bash -e -o pipefail -c "${commands//>docs\//>target/picture/}" || fail "the commands for the larger one"
for picture in poseidon.svg poseidon-widths.svg; do
  tests/same.sh docs/$picture target/picture/$picture || fail "docs/$picture is not what its command draws"
done

# Every drawing is whole: SVG that a parser takes, the marks in the histogram, the entries asked for.
well_formed() { python3 -c 'import sys, xml.dom.minidom as m; m.parseString(sys.stdin.read())'; }
listing=examples/poseidon.listing
for words in --svg '--svg --histogram' '--svg --entries 10-20' '--svg examples/poseidon.job' '--svg --entries 10-9999'; do
  # shellcheck disable=SC2086
  tools/picture.py $words <$listing | well_formed || fail "'$words' draws no SVG"
done
tests/prints.sh '<- floor' tools/picture.py --histogram <$listing || fail "no floor in the histogram"
tests/prints.sh '<- median' tools/picture.py --histogram <$listing || fail "no median in the histogram"
[ "$(tools/picture.py --entries 10-12 <$listing | awk 'NR > 1 { print $1 }' | paste -sd,)" = 10,11,12 ] || fail "other entries than asked for"

# An order of thousands, with an unknown line and field as a later listing may have: a curve.
long=$(mktemp -d)
trap 'rm -rf "$long"' EXIT
{ printf 'status=0\nentries=5000\nplaces=5000\nfloor=1\nmedian=7\nopened=3\n'
  seq 0 4999 | awk '{ printf "order=%d added=%d accepted=0 parallelism=%d written=0 lane=0 later=0\n", $1, $1, 1 + $1 % 13 }'; } >"$long/listing"
tools/picture.py --svg <"$long/listing" | well_formed || fail "no SVG of a long order"
[ "$(tools/picture.py --svg <"$long/listing" | wc -c)" -lt 400000 ] || fail "the SVG of a long order is long itself"
[ "$(tools/picture.py <"$long/listing" | wc -l)" -le 41 ] || fail "the text of a long order is long itself"
# Lanes are told beside the bars, unless all are 0 or the listing has none; a job's lane lines are passed over.
lanes=examples/lanes
without_lanes() { sed -E -f tests/reference/without_lanes.sed "$1"; }
[ "$(tools/picture.py <$lanes.listing | awk '{ print $4 }' | paste -sd' ')" = "lane $(sed -n 's/.* lane=//p' $lanes.listing | paste -sd' ')" ] ||
  fail "other lanes are told than the listing's"
without_lanes $lanes.listing | tools/picture.py >"$long/drawn"
! grep -q lane "$long/drawn" || fail "lanes are told of a listing without them"
sed 's/ lane=[0-9]*$/ lane=0/' $lanes.listing | tools/picture.py | tests/same.sh - "$long/drawn" || fail "lanes that are 0 are told"
tools/picture.py --svg $lanes.job <$lanes.listing >"$long/lanes.svg"
well_formed <"$long/lanes.svg" || fail "no SVG of an order in lanes"
grep -q ', lane 1<' "$long/lanes.svg" || fail "no lane in the SVG of an order in lanes"
without_lanes $lanes.job >"$long/plain.job"
tools/picture.py --svg "$long/plain.job" <$lanes.listing | tests/same.sh - "$long/lanes.svg" || fail "a job's lane lines change the drawing"
# A reader that has gone before anything is written, and one that goes after a line of a drawing that no pipe holds.
unread() { # COMMAND..
  python3 -c 'import os, subprocess, sys; read, write = os.pipe(); os.close(read); sys.exit(subprocess.run(sys.argv[1:], stdout=write).returncode)' "$@"
}
for words in '' --svg --histogram; do
  # shellcheck disable=SC2086
  unread tools/picture.py $words <"$long/listing" 2>"$long/err" || fail "'$words': a reader that has gone ends it with $?"
  [ ! -s "$long/err" ] || fail "'$words': a reader that has gone is not taken quietly"
done
[ "$(tools/picture.py --svg <"$long/listing" | wc -c)" -gt 100000 ] || fail "a drawing that fits a pipe"
tools/picture.py --svg <"$long/listing" 2>"$long/err" | head -n 1 >/dev/null || fail "a reader that goes ends it with a failure"
[ ! -s "$long/err" ] || fail "a reader that goes is not taken quietly"

# An order without entries.
for words in '' --svg --histogram '--svg --histogram'; do
  # shellcheck disable=SC2086
  printf 'status=0\nentries=0\n' | tools/picture.py $words >"$long/drawn" || fail "'$words' can't draw an empty order"
done

# Widths of 0, which no order has, and marks outside of the drawing.
{ printf 'status=0\nfloor=9\nmedian=0\n'
  seq 0 299 | awk '{ printf "order=%d added=%d accepted=0 parallelism=0 written=0\n", $1, $1 }'; } >"$long/zeros"
for words in '' --svg --histogram '--svg --histogram'; do
  # shellcheck disable=SC2086
  tools/picture.py $words <"$long/zeros" >"$long/drawn" || fail "'$words' can't draw widths of 0"
  ! grep -q 'floor' "$long/drawn" || fail "'$words' marks a floor outside of the drawing"
done
tests/prints.sh 'median 0' tools/picture.py --svg <"$long/zeros" || fail "no median within the drawing"

# What can't be drawn: status 1 for a refused job, 2 for anything else, a sentence, and no picture.
refused() { # STATUS WORDS.. <LISTING
  local expected=$1 status=0
  shift
  tools/picture.py "$@" >"$long/out" 2>"$long/err" || status=$?
  [ $status = "$expected" ] && [ -s "$long/err" ] && [ ! -s "$long/out" ] || fail "'$*' is not refused with status $expected"
}
refused 1 <examples/refused/still-waiting.listing
grep -q 'status=12, line=6' "$long/err" || fail "a refused job's status and line are not told"
refused 2 </dev/null
refused 2 <README.md
refused 2 --svg no-such.job <$listing
refused 2 --svg examples/refused/no-final.job <$listing
refused 2 --entries 9-3 <$listing
refused 2 examples/poseidon.job <$listing
refused 2 --colour <$listing
refused 2 --entries 200-300 <$listing
grep -q 'no entry is from 200 to 300' "$long/err" || fail "an empty part is not told"
refused 2 --entries ²-³ <$listing
refused 2 <<<'status=²'
refused 2 <<<'order=0 status=0'
refused 2 < <(printf 'status=0\norder=7 added=0 parallelism=1\n')
refused 2 < <(printf 'status=0\norder=%05000d added=0 parallelism=1\n' 0)
printf 'out=%d\n' $(seq 0 200) >"$long/outs.job"
refused 2 --svg "$long/outs.job" <$listing
refused 2 --svg --histogram examples/poseidon.job <$listing
refused 2 --svg "$long/outs.job" <"$long/listing"
grep -q 'at most 200 entries' "$long/err" || fail "a job with a curve is not told"
refused 2 <&-
grep -q 'standard input is closed' "$long/err" || fail "a closed standard input is not told"
lost() { # SENTENCE REDIRECTION
  local status=0
  bash -c "tools/picture.py <$listing $2" 2>"$long/err" || status=$?
  [ $status = 2 ] && [ "$(cat "$long/err")" = "picture.py: $1" ] || { cat "$long/err" >&2; fail "'$2' is not told"; }
}
lost 'standard output is closed' '>&-'
lost '[Errno 28] No space left on device' '>/dev/full'
tests/prints.sh histogram tools/picture.py --help || fail "no help"
echo "picture: those of docs/GUARANTEE.md are what their commands draw; other drawings, of lanes too, and 20 refusals as expected"
