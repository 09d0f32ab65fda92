#!/bin/bash
# The tools that write or count what stands in the crates, on a small repository: crates.py, exported.py, rooms.py, unused.py,
# edits.py, metrics.py, lines.py, places.py, and oracle's vectors.py and generate.py. Each finds what it must, says it, and writes nothing when it
# only compares; wrong words get a sentence. That the repository itself is as they write it is looked at by steps of .ci/run.
set -euo pipefail
trap 'echo "$0: line $LINENO ended with $?" >&2' ERR
cd "$(dirname "$0")/../.."

here=$PWD
fail() { echo "tests/tools: $*" >&2; exit 1; }
toy=$(mktemp -d)
trap 'rm -rf "$toy"' EXIT
export PYTHONDONTWRITEBYTECODE=1

fresh() {
  rm -rf "$toy"/*
  mkdir -p "$toy"/{tools,docs,tests,crates/base/{src,specs},crates/mid/{src,specs,proofs/twice},crates/top/src}
  cp tools/*.py "$toy/tools/"
  printf '%s\n' 'top: base mid    # the program' 'mid:    # doubled' 'base:    # what is meant' >"$toy/crates.txt"
  printf '%s\n' '| layer | crates |' '|---|---|' '| below | base |' '| above | mid, top |' >"$toy/docs/ARCHITECTURE.md"
  echo 'The law is `doubled`.' >"$toy/docs/STATEMENTS.md"
  printf '%s\n' 'pub mod Base' >"$toy/crates/base/specs/Lib.antt"
  cat >"$toy/crates/base/specs/Base.antt" <<'TEXT'
-- a comment with double
use Rattle.std.specs.Prelude.{ℕ, ◌+◌, suc}
use Rattle.std.specs.Prelude as lists

unfoldable pub double : ℕ → ℕ
double n = n + n

pub lonely : ℕ → ℕ
unfolding double
lonely n = lonely n

pub doubled : (n : ℕ) → double n ≡ n + n
doubled n = refl
TEXT
  cat >"$toy/crates/base/src/lib.rt" <<'TEXT'
// The most, and what holds one.
pub const MOST: u32 = 4;

pub struct Held {
    pub number: u32,
}
TEXT
  cat >"$toy/crates/mid/src/lib.rt" <<'TEXT'
ghost use Rattle.base.specs.Base.{double};
use base::{Held};

pub struct Pair {
    pub held: Held,
}

#[tactic(auto, using(crate::proofs::Given::helper))]
pub fn twice(x: u32, a: u32, b: u32, c: u32, d: u32, e: u32, f: u32, g: u32, h: u32) -> Pair
    requires { x ≤ 9 }
    ensures { result.held.number ≡ double x }
{
    let i = 4 * k + order / 4 + 5 * r + 3 * v;
    Pair { held: Held { number: x + x } }
}

fn idle(x: u32) -> u32 {
    x
}
TEXT
  cat >"$toy/crates/mid/proofs/twice/Answers.antt" <<'TEXT'
use Rattle.mid.proofs.twice.Goals as goal
use Rattle.mid.proofs.Given.{cited}

pub returns : goal.returns
returns c = cited c.args
TEXT
  echo 'mod Given' >"$toy/crates/mid/proofs/Lib.antt"
  printf '%s\n' 'pub helper : Unit' 'helper = tt' '' 'pub cited : Unit' 'cited = tt' '' 'pub idle : Unit' 'idle = tt' >"$toy/crates/mid/proofs/Given.antt"
  cat >"$toy/crates/top/src/main.rt" <<'TEXT'
fn main() {
    let p = mid::twice(1, 2, 3, 4, 5, 6, 7, 8, 9);
    show(p.held.number);
}
TEXT
}

# says STATUS WORDS COMMAND..: the command ends with the status and says the words.
findings=0
says() {
  local status=$1 words=$2 ended=0
  shift 2
  findings=$((findings + 1))
  "$@" >"$toy/said" 2>&1 </dev/null || ended=$?
  [ $ended -eq "$status" ] || { cat "$toy/said" >&2; fail "$*: ended with $ended, not $status"; }
  grep -qF -- "$words" "$toy/said" || { cat "$toy/said" >&2; fail "$*: does not say: $words"; }
}

# crates.txt: what is named and what values hold, in an order that stands; comments stay.
fresh
says 1 'crates.txt is not what the crates use' "$toy/tools/crates.py" --check
says 0 '3 crates with 3 uses' "$toy/tools/crates.py"
diff - <(tail -n +2 "$toy/crates.txt") <<'TEXT' || fail "crates.txt is written otherwise"
base:    # what is meant
mid: base    # doubled
top: base mid    # the program
TEXT
says 0 '3 crates with 3 uses' "$toy/tools/crates.py" --check
echo '// mid::MOST' >>"$toy/crates/base/src/lib.rt"
says 0 '3 crates with 3 uses' "$toy/tools/crates.py" --check
echo 'pub const LEAST: u32 = mid::MOST;' >>"$toy/crates/base/src/lib.rt"
says 1 'in a circle' "$toy/tools/crates.py" --check
fresh && mkdir "$toy/crates/new"
says 1 'crates/new has no line in crates.txt' "$toy/tools/crates.py"
fresh && echo 'gone:    # nothing' >>"$toy/crates.txt"
says 1 'there is no crates/gone' "$toy/tools/crates.py"
fresh && sed -i 's/ *# doubled//' "$toy/crates.txt"
says 1 'mid has no comment' "$toy/tools/crates.py"

# A static library says so on its line.
fresh && mkdir -p "$toy/crates/mid_c/src" && echo 'mid_c staticlib:    # exported' >>"$toy/crates.txt"
echo 'pub extern "C" fn idle(x: u32) -> u32 { mid::twice(x, 2, 3, 4, 5, 6, 7, 8, 9).held.number }' >"$toy/crates/mid_c/src/lib.rt"
says 0 '4 crates with 5 uses' "$toy/tools/crates.py"
grep -qx 'mid_c staticlib: base mid    # exported' "$toy/crates.txt" || fail "the line of a static library is another"
fresh && echo 'mid_c library:    # exported' >>"$toy/crates.txt"
says 1 'crates.txt:4: not `name: uses' "$toy/tools/crates.py"

# An exported call stands in the static library with the same parameters and clauses.
fresh && mkdir -p "$toy/crates/mid_c/src" && echo 'mid_c staticlib:    # exported' >>"$toy/crates.txt"
cat >>"$toy/crates/mid/src/lib.rt" <<'TEXT'

// Twice, for hosts.
#[unsafe(no_mangle)]
pub extern "C" fn mid_twice(x: u32, into: &mut [u32]) -> u32
    requires { x ≤ 9 }
    ensures { result ≡ double x }
{
    x + x
}
TEXT
says 1 'crates/mid_c/src/lib.rt is not what tools/exported.py writes' "$toy/tools/exported.py" --check
says 0 'exported: 1 calls of 1 crates' "$toy/tools/exported.py"
diff - "$toy/crates/mid_c/src/lib.rt" <<'TEXT' || fail "the static library is written otherwise"
// The exported calls of crate mid, by their C names.
#![tactic(auto)]

ghost use Rattle.base.specs.Base.{double};

// Twice, for hosts.
#[unsafe(no_mangle)]
pub extern "C" fn mid_twice(x: u32, into: &mut [u32]) -> u32
    requires { x ≤ 9 }
    ensures { result ≡ double x }
{
    mid::mid_twice(x, into)
}
TEXT
sed -i 's/^\/\/ Twice.*/\/\/ Twice as much./' "$toy/crates/mid_c/src/lib.rt"
says 0 'the same in their static libraries' "$toy/tools/exported.py" --check
sed -i 's/requires { x ≤ 9 }/requires { x ≤ 8 }/' "$toy/crates/mid_c/src/lib.rt"
says 1 '+    requires { x ≤ 9 }' "$toy/tools/exported.py" --check
sed -i '/^mid_c/d' "$toy/crates.txt" && rm -r "$toy/crates/mid_c"
says 1 'mid has exported calls, and there is no mid_c' "$toy/tools/exported.py" --check

# The picture: every crate in a layer, no arrow to a layer further down.
fresh && "$toy/tools/crates.py" >"$toy/said"
says 1 'docs/rooms.svg is not what tools/rooms.py writes' "$toy/tools/rooms.py" --check
says 0 'arrows: 1' "$toy/tools/rooms.py"
says 0 'arrows: 1' "$toy/tools/rooms.py" --check
python3 -c 'import sys, xml.dom.minidom as m; m.parse(sys.argv[1])' "$toy/docs/rooms.svg" || fail "the picture is no SVG"
grep -q '<title>mid: doubled</title>' "$toy/docs/rooms.svg" || fail "the picture has no room mid"
sed -i 's/mid, top/top/' "$toy/docs/ARCHITECTURE.md"
says 1 'the layers have no crate mid' "$toy/tools/rooms.py"
sed -i 's/| base |/| base, mid, mud |/' "$toy/docs/ARCHITECTURE.md"
says 1 'mud, and crates.txt has none' "$toy/tools/rooms.py"
sed -i 's/, mid, mud |/, top |/; s/above | top/above | mid/' "$toy/docs/ARCHITECTURE.md"
says 1 'top uses mid, which the table' "$toy/tools/rooms.py"
sed -i 's/| layer/| level/' "$toy/docs/ARCHITECTURE.md"
says 1 'has no table' "$toy/tools/rooms.py"

# Unused: an import, a law, a lemma, a function and a constant; a law that is cited or kept is none, and no lemma that an answer
# cites or a tactic is given.
fresh && "$toy/tools/crates.py" >"$toy/said"
status=0
"$toy/tools/unused.py" >"$toy/found" || status=$?
diff - "$toy/found" <<'TEXT' || fail "other names are found unused"
crates/base/specs/Base.antt:8: nothing uses base/Base.lonely
crates/mid/proofs/Given.antt:7: nothing uses mid/proofs/Given.idle
crates/base/src/lib.rt:2: nothing uses base::MOST
crates/mid/src/lib.rt:17: nothing uses mid::idle
crates/base/specs/Base.antt:2: imports suc, and does not use it
crates/base/specs/Base.antt:3: imports lists, and does not use it
unused: 2 declarations, 2 items, 2 imported names; 0 kept with a reason
TEXT
[ $status = 1 ] || fail "unused names are no failure"
printf '%s\n' 'base/Base.lonely | a test' 'base::MOST | a test' 'mid::idle | a test' >"$toy/tools/unused.txt"
says 0 '1 declarations more are kept' "$toy/tools/unused.py" --keep 'a reason'
grep -qx 'mid/proofs/Given.idle | a reason' "$toy/tools/unused.txt" || fail "another name is kept"
says 0 '2 imported names removed' "$toy/tools/unused.py" --remove-imports base
says 0 'unused: 0 declarations, 0 items, 0 imported names; 4 kept' "$toy/tools/unused.py"
grep -qx 'use Rattle.std.specs.Prelude.{ℕ, ◌+◌}' "$toy/crates/base/specs/Base.antt" || fail "another import is left"
sed -i 's/use base::{Held}/use base::{Held, MOST}/' "$toy/crates/mid/src/lib.rt" && sed -i '/^base::MOST/d' "$toy/tools/unused.txt"
says 1 'crates/mid/src/lib.rt:2: imports MOST, and does not use it' "$toy/tools/unused.py"
echo 'base/Base.double | a test' >>"$toy/tools/unused.txt"
says 1 'base/Base.double is used or gone' "$toy/tools/unused.py"
echo 'nonsense' >>"$toy/tools/unused.txt"
says 1 'tools/unused.txt:5: not' "$toy/tools/unused.py"
says 1 'no crate nosuch' "$toy/tools/unused.py" --remove-imports nosuch

# Wrong programs: what one replaces stands once.
fresh && mkdir "$toy/crates/mid/must-fail"
edit=$toy/crates/mid/must-fail/idle.edit
printf '%s\n' '# another name' 'file: src/lib.rt' 'old: fn idle(' 'new: fn busy(' >"$edit"
says 0 'wrong programs: 1, of which 0 cannot be made' "$toy/tools/edits.py"
sed -i 's/^old: .*/old: fn /' "$edit"
says 1 "crates/mid/must-fail/idle.edit: 'fn ' stands" "$toy/tools/edits.py"
sed -i 's/^old: .*/old: fn lost/' "$edit"
says 1 "'fn lost' stands 0 times in src/lib.rt, not once" "$toy/tools/edits.py"
sed -i 's/^file: .*/file: src\/other.rt/' "$edit"
says 1 'crate mid has no file src/other.rt' "$toy/tools/edits.py"
echo '# nothing' >"$edit"
says 1 'it replaces nothing' "$toy/tools/edits.py"
says 1 'usage' tools/edits.py --nothing

# The counts.
fresh && "$toy/tools/crates.py" >"$toy/said"
"$toy/tools/metrics.py" >"$toy/found"
for count in '0  contracts over 400' '1  functions with more than 8' '1  crates that spell a layout out: entry, in code' \
  '1  crates that spell a layout out: row, in code' '1  crates that spell a layout out: waiting storage, in code' \
  '3  uses that crates.txt lists'; do
  grep -qF " $count" "$toy/found" || { cat "$toy/found" >&2; fail "metrics: not $count"; }
done
says 0 'crates/mid/src/lib.rt:9 twice 9' "$toy/tools/metrics.py" --names
says 0 'contracts over 400' tools/metrics.py --root "$toy"
says 1 'crates that spell a layout out: entry, in code: mid 2' "$toy/tools/metrics.py" --check

# Long lines are broken, and say what they said.
fresh
long=$(printf ' + double (n + %d)' $(seq 20))
printf '%s\n' '' 'pub wide : ℕ → ℕ' "wide n = n$long" >>"$toy/crates/base/specs/Base.antt"
says 1 'crates/base/specs/Base.antt:16: ' "$toy/tools/lines.py" --check
"$toy/tools/lines.py" base
"$toy/tools/lines.py" --check || fail "lines: one is still too long"
[ "$(tail -n +16 "$toy/crates/base/specs/Base.antt" | tr -s ' \n' '  ')" = "wide n = n$long " ] || fail "a broken line says something else"
echo "// $long" >>"$toy/crates/base/src/lib.rt"
says 1 'crates/base/src/lib.rt:7: ' "$toy/tools/lines.py" --check
says 0 'crates/base/src/lib.rt:7: ' "$toy/tools/lines.py" base
says 0 'no chain of .before over 5' "$toy/tools/places.py" --check
sed -i 's/^returns c = cited c.args/returns c = cited c.before.before.before.before.before.before.args/' "$toy/crates/mid/proofs/twice/Answers.antt"
says 1 'crates/mid/proofs/twice' "$toy/tools/places.py" --check
says 2 'tools/places.py takes --check alone' "$toy/tools/places.py" mid
says 2 "tools/lines.py: a crate is needed" "$toy/tools/lines.py"
says 2 "tools/lines.py: there is no crate nosuch" "$toy/tools/lines.py" mid nosuch
says 2 "tools/lines.py: there is no crate ../crates" "$toy/tools/lines.py" ../crates
says 2 "tools/lines.py: unknown option --nothing" "$toy/tools/lines.py" --nothing

# The recorded runs.
fresh && mkdir -p "$toy/oracle" "$toy/crates/vectors" && cp -r oracle/*.py oracle/sample "$toy/oracle/" && cp -r crates/vectors/specs "$toy/crates/vectors/"
says 0 'sessions and' "$toy/oracle/vectors.py" --check
says 0 'runs in 4 files, as kept' "$toy/oracle/generate.py" --check
sed -i 's/^= order 1,1,2,2 /= order 1,1,1,2 /' "$toy/oracle/sample/placements.txt"
says 1 'Runs1.antt is not what oracle/vectors.py writes' "$toy/oracle/vectors.py" --check
says 0 'runs in 4 files, as kept' "$toy/oracle/generate.py" --check
sed -i '0,/^push 0.*/s//push 9 9 9 -/' "$toy/oracle/sample/guides.txt"
says 1 'guides.txt' "$toy/oracle/generate.py" --check
touch "$toy/crates/vectors/specs/Runs9.antt"
says 1 'Runs9.antt is there' "$toy/oracle/vectors.py" --check

# Host code says that it is not proved, in its first line or after `#!`.
fresh && git -C "$toy" init -q && git -C "$toy" add tools
first_lines() { (cd "$toy" && python3 "$here/.ci/first_lines.py"); }
says 0 ' files of host code, 0 do not say' first_lines
sed -i '2s/Host code, not proved/Code/' "$toy/tools/rooms.py" && sed -i '1s/^/\n/' "$toy/tools/antt.py"
says 1 'tools/antt.py: its first line does not say' first_lines
says 1 'tools/rooms.py: its first line does not say' first_lines
rm -rf "$toy/.git"

# The reading list: what a promise is made of and is not listed is said, and so are what none is made of and a wrong count.
fresh && mkdir -p "$toy/.ci" && cp .ci/reading.py "$toy/.ci/" && cp README.md "$toy/" && cp -r crates "$toy/"
says 0 'every definition that a promise is made of stands in one' "$toy/.ci/reading.py"
sed -i 's#laws/Order\.nth, ##' "$toy/README.md"
says 1 'README.md leaves out laws/Order.nth, which a promise is made of' "$toy/.ci/reading.py"
cp README.md "$toy/" && sed -i 's#laws/Tally\.having#laws/Tally.having, laws/Tally.nothing#' "$toy/README.md"
says 1 'README.md names laws/Tally.nothing, and there is none' "$toy/.ci/reading.py"
cp README.md "$toy/" && sed -i 's#laws/Demand, #laws/Demand, laws/Kept, #' "$toy/README.md"
says 1 'README.md names laws/Kept, and no promise needs it' "$toy/.ci/reading.py"
cp README.md "$toy/" && echo >>"$toy/crates/laws/specs/Demand.antt"
says 1 'lines are said' "$toy/.ci/reading.py"
grep -q "^## $(cat VERSION)$" CHANGELOG.md || fail "CHANGELOG.md has no heading for version $(cat VERSION)"

# Words: every command of tools/ has its help on standard output, and an unknown option gets a sentence and nothing else. What
# is no command there is data, or a module without the mode and the first line of one.
commands=0
for tool in tools/* oracle/vectors.py; do
  [ -f "$tool" ] || continue
  if [ ! -x "$tool" ]; then
    [[ $tool == *.txt || $tool == *.py && $(head -c 2 "$tool") != '#!' ]] || fail "$tool is neither a command nor a module"
    continue
  fi
  commands=$((commands + 1))
  "$tool" --help >"$toy/help" 2>"$toy/said" </dev/null || fail "$tool --help: ended with $?"
  [ ! -s "$toy/said" ] || fail "$tool --help: says something on standard error"
  grep -qF "$(basename "$tool")" "$toy/help" || { cat "$toy/help" >&2; fail "$tool --help: does not name the command"; }
  ! "$tool" --nothing >"$toy/help" 2>"$toy/said" </dev/null || fail "$tool --nothing: taken"
  [ -s "$toy/said" ] && [ ! -s "$toy/help" ] || fail "$tool --nothing: no sentence, or not on standard error"
done
for tool in tools/{crates,exported,rooms,unused,metrics,refusals}.py oracle/vectors.py; do
  says 1 'usage' "$here/$tool" --nothing
done
says 2 'bench/large.sh: REPETITIONS is a number from 1 to 9999, not x' bench/large.sh x
says 2 'bench/large.sh: REPETITIONS is a number from 1 to 9999, not 0' bench/large.sh 0
says 2 'bench/large.sh: one number at most' bench/large.sh 3 3
says 2 'large.py: REPETITIONS is a number from 1 to 9999' python3 bench/large.py x
says 2 'large.py: REPETITIONS is a number from 1 to 9999' python3 bench/large.py
for tool in tools/{crates,exported,rooms,unused,metrics}.py; do
  says 1 'cannot be read' "$here/$tool" --root "$toy/nowhere"
done
echo "tools: crates, exported calls, rooms, unused names, counts and recorded runs: $findings answers as expected; $commands commands with their help"
