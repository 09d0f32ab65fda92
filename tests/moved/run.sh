#!/bin/bash
# tools/moved.py on a small repository with two commits: what stays, moves, comes and goes is told apart,
# and a commit or a log that is not there is said.
set -euo pipefail
trap 'echo "$0: line $LINENO ended with $?" >&2' ERR
root=$(cd "$(dirname "$0")/../.." && pwd)
tool=$root/tools/moved.py
folder=$(mktemp -d)
trap 'rm -rf "$folder"' EXIT
cd "$folder"

commit() { git add -A && git -c user.name=test -c user.email=test@localhost commit -qm "$1"; }
mkdir -p crates/toy/{specs,src,proofs/twice,must-fail}
cat >crates/toy/specs/Toy.antt <<'TEXT'
-- a comment
unfoldable pub double : ℕ → ℕ
double n = n + n

module _ (n : ℕ) where
  pub even : Even (double n)
  even = evidence

module _ (m : ℕ)
    (small : m ≤ 9) where
  pub low : double m ≤ 18
  low = evidence
TEXT
cat >crates/toy/src/lib.rt <<'TEXT'
pub fn twice(x: u32) -> u32
    requires { x ≤ 9 }
    ensures { result ≡ double x }
{
    x + x
}

pub fn same(x: u32) -> u32
{
    x
}

pub fn wide(x: u32) -> u64
    ensures { result ≡ x }
{
    x as u64
}

pub fn least(x: u32) -> u32
    requires { x ≤ 5 }
{
    x
}
TEXT
echo 'proof' >crates/toy/proofs/twice/Answers.antt
echo 'edit' >crates/toy/must-fail/thrice.edit
git init -q . && commit before
sed -i 's/-- a comment/-- another/; s/(n : ℕ)/(n : ℕ) (h : n ≤ 9)/; s/m ≤ 9/m ≤ 8/' crates/toy/specs/Toy.antt
sed -i 's/x ≤ 9/x ≤ 8/; s/^    x$/    x + 0/' crates/toy/src/lib.rt
git mv crates/toy/must-fail/thrice.edit crates/toy/must-fail/never.edit
# two functions go to another crate, one of them with another promise
mkdir -p crates/room/src
sed -n '/^pub fn wide/,$p' crates/toy/src/lib.rt | sed 's/x ≤ 5/x ≤ 6/' >crates/room/src/lib.rt
sed -i '/^pub fn wide/,$d' crates/toy/src/lib.rt
commit after

cat >expected <<'TEXT'
| | before | stayed | in another crate | moved | new | gone |
|---|---:|---:|---:|---:|---:|---:|
| definition | 1 | 1 | 0 | 0 | 0 | 0 |
| law | 2 | 0 | 0 | 2 | 0 | 0 |
| law proof | 2 | 2 | 0 | 0 | 0 | 0 |
| promise | 4 | 1 | 1 | 2 | 0 | 0 |
| code | 4 | 1 | 1 | 2 | 0 | 0 |
| proof | 1 | 1 | 0 | 0 | 0 | 0 |
| wrong program | 1 | 0 | 0 | 0 | 1 | 1 |

50 % of the promises stayed.

law, moved: toy: even, low

promise, in another crate: toy: wide

promise, moved: toy: least, twice

code, in another crate: toy: wide

code, moved: toy: least, same

wrong program, new: toy: never.edit

wrong program, gone: toy: thrice.edit
TEXT
"$tool" HEAD~1 HEAD | diff expected - || { echo "tests/moved: the table differs" >&2; exit 1; }

# The logs as .ci/run writes them; one that ends before its last step has fewer.
printf '%s\n' '== links' '   links: ok, 1 s' '== proofs' 'rt: a proved' 'rt: b proved' '   proofs (log): ok, 8 s' '   tests: ok, 5 s' >before.log
printf '%s\n' '== links' '   links: ok, 0 s' '== proofs' 'rt: a proved' 'rt: b proved' '   proofs (log): ok, 14 s' '   tests: ok, 5 s' >after.log
printf '%s\n' '== links' '   links: ok, 0 s' '== proofs' 'rt: a proved' >short.log
times() { # LOG LINE..
  local log=$1
  shift
  printf '%s\n' '| step | before, s | after, s |' '|---|---:|---:|' "$@" |
    diff - <("$tool" --times before.log $log) || { echo "tests/moved: the times of $log differ" >&2; exit 1; }
}
times after.log '| proofs (log) | 8 | 14 |' '| all | 14 | 19 |'
times short.log '| proofs (log) | 8 | – |' '| tests | 5 | – |' '| all | 14 | 0 |'

for words in 'no-such-commit' '--times before.log no-such.log' '--times expected after.log' '' '--what' \
  'HEAD~1 --times' 'HEAD -v' '--times before.log -v' '--help HEAD'; do
  status=0
  # shellcheck disable=SC2086
  "$tool" $words >out 2>err || status=$?
  # 2 for wrong words, options in a wrong place among them; 1 for what git or a log does not have
  case "$words" in '' | --what | HEAD* | '--times before.log -v' | --help*) expected_status=2 ;; *) expected_status=1 ;; esac
  [ $status -eq $expected_status ] && [ -s err ] && [ ! -s out ] || { echo "tests/moved: '$words' is not refused" >&2; exit 1; }
done
"$root/tests/prints.sh" BEFORE "$tool" --help || { echo "tests/moved: no help" >&2; exit 1; }

# What cannot be printed is said, and a reader that goes is not.
lost() { # STATUS SENTENCE REDIRECTION
  local status=0 said
  said=$(bash -o pipefail -c "'$tool' HEAD~1 HEAD $3" 2>&1) || status=$?
  [ $status = "$1" ] && [ "$said" = "$2" ] || { echo "tests/moved: '$3': status $status, $said" >&2; exit 1; }
}
lost 1 'moved: standard output is closed' '>&-'
lost 1 'moved: [Errno 28] No space left on device' '>/dev/full'
lost 0 '' '| exec sleep 0'
"$root/tests/prints.sh" 'Host code, not proved' sed -n 2p "$tool" || { echo "tests/moved: the tool does not say that it is host code" >&2; exit 1; }
echo "tests/moved: a table, times, 9 refusals and 3 lost tables as expected"
