#!/bin/bash
# Every job of examples/ gives the listing that is kept beside it, the generated ones are what their
# commands write, lanes change nothing else, and examples/README.md tells the answers of the refused ones, one for every number. Needs
# target/bin/order and order_reason.
set -euo pipefail
trap 'echo "$0: line $LINENO ended with $?" >&2' ERR
cd "$(dirname "$0")/../.."

tools/archives order order_reason || { echo "tests/examples: no programs" >&2; exit 1; }
order=target/bin/order
failed=0 count=0
for job in examples/*.job examples/refused/*.job; do
  count=$((count + 1))
  $order <"$job" | tests/same.sh - "${job%.job}.listing" || { echo "tests/examples: $job has another listing" >&2; failed=1; }
done

generated=0
while read -r name command; do
  generated=$((generated + 1))
  $command | tests/same.sh - "examples/$name" || { echo "tests/examples: $name is not what '$command' writes" >&2; failed=1; }
done < <(sed -n 's/^| \[\([a-z]*\.job\)\].*| `\(tools[^`]*\)` |$/\1 \2/p' examples/README.md)

by_hand=$(grep -c '^| \[[a-z]*\.job\].*| by hand |$' examples/README.md)
[ $((generated + by_hand)) -eq "$(ls examples/*.job | wc -l)" ] ||
  { echo "tests/examples: README says of $generated jobs only how they are made, and of $by_hand that they are by hand" >&2; failed=1; }

# Without its lane lines lanes.job has the same listing but for the lanes.
without_lanes() { sed -E -f tests/reference/without_lanes.sed; }
without_lanes <examples/lanes.job | $order | without_lanes | tests/same.sh - <(without_lanes <examples/lanes.listing) ||
  { echo "tests/examples: lanes.job without its lane lines has another listing" >&2; failed=1; }

told=0
while IFS='|' read -r name status line; do
  told=$((told + 1))
  printf 'status=%s\nline=%s\n' "$status" "$line" | tests/same.sh - "examples/refused/$name.listing" ||
    { echo "tests/examples: README tells another answer of $name" >&2; failed=1; }
done < <(sed -n 's/^| \[\([a-z-]*\)\](refused.*| status=\([0-9]*\), line=\([0-9]*\) |.*/\1|\2|\3/p' examples/README.md)
[ "$told" -eq "$(ls examples/refused/*.job | wc -l)" ] || { echo "tests/examples: README leaves out a refused job" >&2; failed=1; }
[ $failed = 0 ] || exit 1
python3 .ci/transcripts.py examples/README.md

# Of every number that a job can be refused with by `order` there is an example there. 19 and 20 refuse no job: they say of
# a registration that there is no reason to tell. 21 is a breach of the ascending profile, and a job's session is ordinary.
answers=$(sed -n 's/.*status=\([1-9][0-9]*\).*/\1/p' examples/README.md | sort -nu | paste -sd' ')
[ "$answers" = "1 2 4 5 6 8 9 10 12 15 16 18" ] || { echo "tests/examples: README has examples of $answers" >&2; exit 1; }

misuses=0
for words in 'poseidon' 'poseidon 0' 'tower 3' 'chain 4 --parallelism x' 'chain ³' 'chain 4 --lanes 0' 'chain 4 --lanes 257' 'chain 4 --lanes x'; do
  misuses=$((misuses + 1))
  status=0
  # shellcheck disable=SC2086
  tools/circuit.py $words >/dev/null 2>&1 || status=$?
  [ $status = 2 ] || { echo "tests/examples: circuit.py takes '$words'" >&2; exit 1; }
done
# The lanes of a circuit take turns, and without their lines it is the circuit.
[ "$(tools/circuit.py wide 5 --lanes 3 | sed -n 's/^lane=//p' | paste -sd' ')" = "0 1 2 0 1" ] || { echo "tests/examples: circuit.py wide 5 --lanes 3 has other lanes" >&2; exit 1; }
for words in 'poseidon 1' 'backwards 300 --parallelism 3'; do
  # shellcheck disable=SC2086
  tools/circuit.py $words --lanes 256 | without_lanes | tests/same.sh - <(tools/circuit.py $words) || { echo "tests/examples: circuit.py $words --lanes 256 is another circuit" >&2; exit 1; }
done
tools/circuit.py wide 300 --lanes 256 >target/circuit.out
tests/prints.sh ' lane=255' $order <target/circuit.out || { echo "tests/examples: a circuit in 256 lanes has no entry in lane 255" >&2; exit 1; }
tools/circuit.py wide 100000 2>&1 | head -n 1 | grep -qx 'parallelism=8' || { echo "tests/examples: circuit.py minds a closed pipe" >&2; exit 1; }

# The count of places in a job's head is that of the places it names, and the greatest is 16,777,216: one registration more, or
# one permutation, and nothing is written. A circuit that is made whole before it is written would not fit the memory.
for words in 'poseidon 1' 'poseidon 16' 'poseidon 17' 'poseidon 40' 'chain 7' 'wide 7' 'backwards 7'; do
  # shellcheck disable=SC2086
  tools/circuit.py $words | awk -F= '$1 == "places" { told = $2 }
    $1 == "set" { seen[$2] = 1 } $1 == "in" || $1 == "out" { for (i = split($2, place, ","); i; i--) seen[place[i]] = 1 }
    END { for (name in seen) count++; exit !(count == told && (count - 1) in seen) }' ||
    { echo "tests/examples: circuit.py $words names other places than it says" >&2; exit 1; }
done
while read -r kind most places; do
  [ "$( (ulimit -v 400000; tools/circuit.py "$kind" "$most") | sed -n '2{p;q}')" = "places=$places" ] ||
    { echo "tests/examples: circuit.py does not make $kind $most, of $places places" >&2; exit 1; }
  status=0
  (ulimit -v 400000; tools/circuit.py "$kind" $((most + 1))) >target/circuit.out 2>target/circuit.said || status=$?
  [ $status = 2 ] && [ ! -s target/circuit.out ] && grep -q '^circuit.py: .* a job has at most 16,777,216$' target/circuit.said ||
    { cat target/circuit.said >&2; echo "tests/examples: circuit.py $kind $((most + 1)) is not refused" >&2; exit 1; }
done <<'END'
poseidon 34520 16776784
chain 16777216 16777216
wide 16777216 16777216
backwards 16777215 16777216
END

# A job that can't be written: a sentence and status 2.
lost() { # SENTENCE REDIRECTION
  local status=0 said
  said=$(bash -c "tools/circuit.py wide 10 $2" 2>&1) || status=$?
  [ $status = 2 ] && [ "$said" = "circuit.py: $1" ] || { echo "tests/examples: circuit.py $2: status $status, $said" >&2; exit 1; }
}
lost 'standard output is closed' '>&-'
lost 'the job cannot be written: [Errno 28] No space left on device' '>/dev/full'
echo "examples: $count jobs with their listings, $generated of them generated, $told answers told, $misuses misuses and 4 circuits that are too large refused, 2 lost jobs said"
