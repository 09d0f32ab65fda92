#!/bin/bash
# Host code, not proved: what stands around the proved calls for hosts in C. One source of the refusals'
# names; headers, examples and replay_storage with every compiler that is at hand, as C99 and C++11; the
# commands of docs/JOB.md, docs/HOSTS.md and docs/GUIDE.md; the command order-job; an installation, and a host that is
# built with nothing but pkg-config from it.
set -euo pipefail
trap 'echo "$0: line $LINENO ended with $?" >&2' ERR
cd "$(dirname "$0")/../.."

fail() { echo "tests/hosts/run.sh: $*" >&2; exit 1; }
work=$PWD/target/hosts
rm -rf "$work"
mkdir -p "$work"

# refuses STATUS WORDS COMMAND..: the command ends with the status and says the words on standard error.
refuses() {
  local status=$1 words=$2 ended=0
  shift 2
  "$@" </dev/null >"$work/out" 2>"$work/said" || ended=$?
  [ $ended -eq "$status" ] || { cat "$work/said" >&2; fail "$*: ended with $ended, not $status"; }
  [ -z "$words" ] || grep -qF -- "$words" "$work/said" || { cat "$work/said" >&2; fail "$*: does not say: $words"; }
}

# An installation, which makes the archives that are missing. Twice: the second goes over the first.
prefix=$work/prefix/deep
slow=$SECONDS
tools/install "$prefix" >"$work/install.log" || fail "tools/install"
tools/install "$prefix" >"$work/install.log" || fail "tools/install over an installation"
[ -z "$(find "$prefix" -name '.order-install*')" ] || fail "tools/install leaves its folder behind"
echo "hosts: installed twice, $((SECONDS - slow)) s: $(head -n 1 "$work/install.log" | cut -d' ' -f2-5)"

# The archives' own command: what it can't do it says.
refuses 1 "no crate nosuch" tools/archives nosuch
refuses 2 "unknown option --force" tools/archives --force
refuses 2 "unknown option -x" tools/archives host -x
tests/prints.sh NAME.. tools/archives --help || fail "tools/archives --help"
# Copies of the repository's parts lie outside it: a toolchain takes a crate or a crates.txt below its top for a mistake.
outside=$(mktemp -d)
trap 'rm -rf "$outside"' EXIT
# A source edited while the archive is made is newer than it: by a toolchain that edits one, in a copy.
toy=$outside/toy
mkdir -p "$toy"/{tools,bin,crates/toy_c/src} && cp tools/archives "$toy/tools/" && echo 'toy_c staticlib:' >"$toy/crates.txt"
echo 'pub extern "C" fn toy() {}' >"$toy/crates/toy_c/src/lib.rt"
printf '%s\n' '#!/bin/bash' 'echo made >>../../made; sleep 0.1; [ -f ../../edited ] || touch ../../edited src/lib.rt' \
  'sleep 0.1; mkdir -p out; echo archive >out/libtoy_c.a' >"$toy/bin/rt"
chmod +x "$toy/bin/rt"
for expected in 1 2 2; do
  PATH=$toy/bin:$PATH "$toy/tools/archives" || fail "tools/archives in a copy"
  [ "$(wc -l <"$toy/made")" = $expected ] || fail "tools/archives made the archive $(wc -l <"$toy/made") times, not $expected"
done
# Two at a time, archives and a program; one that fails stops no other. What a library, rt ci and other commands left of a crate
# is told apart: over what rt ci has proved of these very files a static library is built by the compiler itself.
toys=$outside/toys
mkdir -p "$toys"/{tools,bin,kit/bin,crates/{base,one_c,two_c,show}/src} && cp tools/archives "$toys/tools/"
printf '%s\n' 'base:' 'one_c staticlib: base    # of two' 'two_c staticlib: base' 'show: base' >"$toys/crates.txt"
for name in one_c two_c; do echo 'pub extern "C" fn toy() {}' >"$toys/crates/$name/src/lib.rt"; done
echo 'fn main() {}' >"$toys/crates/show/src/main.rt"
printf '%s\n' '#!/bin/bash' "[ \$1 != doc ] || { echo $toys/kit/START; exit; }" 'name=$(basename "$PWD")' \
  "echo \"\$1 \$name\" >>$toys/said; [ \$name != \$(cat $toys/wrong) ] || exit 1" 'mkdir -p out' \
  'case $1 in lib) echo archive >out/lib$name.a ;; run) echo program >out/$name ;; esac' >"$toys/bin/rt"
printf '%s\n' '#!/bin/bash' "echo \"\$1 \$3 \$(grep -c -- '^--extern base=../base/out/rlib/base.rlib -L dependency=../base/out/rlib ' <<<\"\${*:9}\")\" >>$toys/said" \
  'echo kept >"${@: -1}"' >"$toys/kit/bin/rattle"
chmod +x "$toys"/{bin/rt,kit/bin/rattle} && echo one_c >"$toys/wrong"
PATH=$toys/bin:$PATH refuses 1 "crate one is not proved or not built" "$toys/tools/archives"
[ "$(cd "$toys/target" && echo staticlib/*.a bin/*)" = 'staticlib/libtwo.a bin/show' ] || fail "tools/archives: the archive that was made is not there"
echo none >"$toys/wrong"
PATH=$toys/bin:$PATH "$toys/tools/archives" || fail "tools/archives after one that failed"
asked() { # LINE..
  sort "$toys/said" | tests/same.sh - <(printf '%s\n' "$@") || fail "tools/archives asks for something else"
  rm "$toys/said"
}
asked 'lib one_c' 'lib one_c' 'lib two_c' 'run show'
touch "$toys/crates/base/src/lib.rt" && mkdir -p "$toys/crates/base/out/rlib" && "$toys/tools/archives" --proved
PATH=$toys/bin:$PATH "$toys/tools/archives" || fail "tools/archives after rt ci"
asked 'build one_c 1' 'build two_c 1'
[ "$(cat "$toys"/target/{staticlib/libone.a,bin/show} | paste -sd' ')" = 'kept program' ] || fail "tools/archives after rt ci: another file"
sleep 0.1 && touch "$toys/crates/base/src/lib.rt" "$toys/crates/base/out/rlib/stamp"
PATH=$toys/bin:$PATH "$toys/tools/archives" one || fail "tools/archives over another command's library"
asked 'lib one_c'
echo '// changed' >"$toys/crates/base/src/lib.rt" && rm "$toys/crates/base/out/rlib/stamp"
PATH=$toys/bin:$PATH "$toys/tools/archives" one show || fail "tools/archives after a change"
asked 'lib one_c' 'run show'
echo "hosts: tools/archives: a source edited meanwhile is seen, three misuses refused; two at a time; what rt ci left is taken while it is of the same files"

# The refusals: the lists are those of the source, and the comparison finds what it must.
tools/refusals.py --check
copy=$outside/copy
mkdir -p "$copy"/{crates/rules,docs,hosts/rust/src,hosts/python/witness_order,tools}
fresh() {
  cp -r crates/rules/specs crates/rules/src "$copy/crates/rules/" && cp docs/JOB.md "$copy/docs/" && cp tools/refusals.py "$copy/tools/"
  cp hosts/refusals.* hosts/order_limits.h "$copy/hosts/" && cp hosts/rust/src/{refusal,limits}.rs "$copy/hosts/rust/src/"
  cp hosts/python/witness_order/{refusals,limits}.py "$copy/hosts/python/witness_order/"
}
for list in hosts/refusals.h hosts/order_limits.h hosts/rust/src/refusal.rs hosts/rust/src/limits.rs \
  hosts/python/witness_order/refusals.py hosts/python/witness_order/limits.py docs/JOB.md; do
  fresh && sed -i -e 's/already set, written or promised/already set or written/' -e 's/64_\?999$/64998/' -e 's/64_999;/64998;/' "$copy/$list"
  refuses 1 "$list is not what" "$copy/tools/refusals.py" --check
done
next=$(($(grep -o '^[0-9]*' hosts/refusals.txt | tail -n 1) + 1))
fresh && echo "$next | one_more | a test adds it | nothing" >>"$copy/hosts/refusals.txt"
"$copy/tools/refusals.py"
refuses 1 "hosts/refusals.txt has one_more ($next), which crates/rules/specs/Refusals.antt has not" "$copy/tools/refusals.py" --check
printf '%s\n' 'abbrev pub one_more : ℕ' "one_more = $next" >>"$copy/crates/rules/specs/Refusals.antt"
refuses 1 "no definition of crates/rules/specs gives refusal.one_more" "$copy/tools/refusals.py" --check
echo "x = record { fails = true; number = refusal.one_more }" >>"$copy/crates/rules/specs/Checks.antt"
refuses 1 "Refusals.antt has one_more ($next), which crates/rules/src/lib.rt has not" "$copy/tools/refusals.py" --check
sed -i "s/^    ProfileBreach = .*/&\n    OneMore = $next,/" "$copy/crates/rules/src/lib.rt"
"$copy/tools/refusals.py" --check >/dev/null || fail "a line in each of four places is not enough for one more refusal"
fresh && sed -i '/^8 /d' "$copy/hosts/refusals.txt"
"$copy/tools/refusals.py"
refuses 1 "Refusals.antt has taken_place (8), which hosts/refusals.txt has not" "$copy/tools/refusals.py" --check
fresh && sed -i 's/^least_flagged = .*/least_flagged = 2 ^ 61/' "$copy/crates/rules/specs/Limits.antt"
refuses 1 "least_flagged is 2305843009213693952 in" "$copy/tools/refusals.py" --check
fresh && sed -i 's/LAST_SPAN_LIMIT: u32 = 4294967264/LAST_SPAN_LIMIT: u32 = 4294967263/' "$copy/crates/rules/src/lib.rt"
refuses 1 "4294967263 in crates/rules/src/lib.rt" "$copy/tools/refusals.py" --check
fresh && echo "8 | twice | never | nothing" >>"$copy/hosts/refusals.txt"
refuses 1 "8 does not ascend" "$copy/tools/refusals.py"
refuses 1 "usage" tools/refusals.py --nothing
cat >"$work/names.rs" <<END
#[path = "$PWD/hosts/rust/src/refusal.rs"]
mod refusal;
fn main() {
    for refusal in (0..64).filter_map(refusal::Refusal::from_number) {
        println!("{} | {} | {} | {}", refusal.number(), refusal.name(), refusal, refusal.advice());
    }
}
END
rustc --edition 2021 -D warnings -o "$work/names" "$work/names.rs"
diff <(grep -v '^#' hosts/refusals.txt) <("$work/names") || fail "the refusals in Rust"
diff <(grep -v '^#' hosts/refusals.txt) <(PYTHONDONTWRITEBYTECODE=1 PYTHONPATH=hosts/python python3 -c '
from witness_order import Refusal
for r in Refusal: print(f"{int(r)} | {r.name.lower()} | {r} | {r.advice}")') || fail "the refusals in Python"
echo "hosts: names of refusals: one source, compared; fourteen wrong copies are found"

# Headers, examples and replay_storage by every compiler, warnings being errors.
compilers=()
for compiler in 'gcc -std=c99' 'g++ -std=c++11 -x c++' 'clang -std=c99' 'clang++ -std=c++11 -x c++'; do
  if command -v ${compiler%% *} >/dev/null; then
    compilers+=("$compiler")
  else
    echo "hosts: no ${compiler%% *}: NOTHING is compiled by it"
  fi
done
archives=$(printf 'target/staticlib/lib%s.a ' $(tools/archives --list))
printf '%s\n' registrations=4 pool=7 flushes=0 most_spans=40 >"$work/j1.needs"
{ printf 'call %s breaches the profile\n' 4 5 && grep ^order= crates/order/stdout; } >"$work/j1.ascending"
cat >"$work/j1.lines" <<'TEXT'
line=1 start=0 end=13
line=2 start=14 end=22
line=3 start=23 end=28
line=4 start=29 end=33
line=5 start=34 end=39
line=6 start=40 end=44
line=7 start=45 end=50
line=8 start=51 end=55
line=9 start=56 end=61
line=10 start=62 end=65
line=11 start=66 end=71
line=12 start=72 end=79
TEXT
# What a job's registrations wait for: one that is placed stands among them.
printf '%s\n' parallelism=4 places=6 in=3 out=0 in= out=4 in=1 out=2 final=1 >"$work/waiting.job"
printf '%s\n' 'registration=0 input=3 place=0' 'registration=2 input=1 place=0' >"$work/waiting.reasons"
headers=0
for compiler in "${compilers[@]}"; do
  strict="$compiler -Wall -Wextra -pedantic -Werror -O2"
  for header in hosts/*.h; do
    echo "#include \"$(basename "$header")\"" | sed 's/$/\nint main(void) { return 0; }/' >"$work/header.c"
    $strict -Ihosts -fsyntax-only "$work/header.c" || fail "$header by $compiler"
    # With -Ihosts it would hide one of the system's, <limits.h> for one.
    echo "#include <$(basename "$header")>" >"$work/header.c"
    ! $compiler -fsyntax-only "$work/header.c" 2>/dev/null || fail "$header has the name of a header of the system's"
    headers=$((headers + 1))
  done
  # J1 with a call that is refused, and a guide's list with such a request: place 3 is written twice, no entry is at 7, 7;
  # on the ascending session it has bit 62.
  sed 's/2, 0, 1, 4,  /2, 0, 1, 3,  /' hosts/replay_example.c >"$work/replay_refused.c"
  sed 's/2, 0, 1, 4,  /2, 0, 1, 3,  /' hosts/storage_example.c >"$work/storage_refused.c"
  sed 's/2, 0, 1, 4,  /2, 0, 1, (uint64_t)1 << 62,/' hosts/ascending_example.c >"$work/ascending_refused.c"
  sed 's/GUIDE_PUSH_AFTER, 1, 0,/GUIDE_PUSH_AFTER, 7, 7,/' hosts/guide_example.c >"$work/guide_refused.c"
  for program in hosts/*_example.c "$work"/*_refused.c tests/hosts/storage.c; do
    $strict -Ihosts -c "$program" -o "$work/program.o" || fail "$program by $compiler"
    ${compiler%% *} "$work/program.o" $archives -o "$work/$(basename "$program" .c)" || fail "$program with the archives"
  done
  diff crates/order/stdout <("$work/order_example" <crates/order/stdin) || fail "order_example by $compiler"
  diff <(grep ^order= crates/order/stdout) <("$work/replay_example") || fail "replay_example by $compiler"
  diff <(grep ^order= crates/order/stdout) <("$work/storage_example" | grep ^order=) || fail "storage_example by $compiler"
  diff "$work/j1.ascending" <("$work/ascending_example") || fail "ascending_example by $compiler"
  "$work/storage" || fail "storage by $compiler"
  diff "$work/j1.needs" <("$work/needs_example" <crates/order/stdin) || fail "needs_example by $compiler"
  diff "$work/j1.needs" <("$work/needs_example" crates/order/stdin) || fail "needs_example with a file by $compiler"
  diff "$work/waiting.reasons" <("$work/reason_example" <"$work/waiting.job") || fail "reason_example by $compiler"
  diff /dev/null <("$work/reason_example" crates/order/stdin) || fail "reason_example where nothing waits by $compiler"
  diff "$work/j1.lines" <("$work/line_end_example" <crates/order/stdin) || fail "line_end_example by $compiler"
  diff "$work/j1.lines" <("$work/line_end_example" crates/order/stdin) || fail "line_end_example with a file by $compiler"
  diff - <("$work/guide_example") <<'TEXT' || fail "guide_example by $compiler"
request 0: span 1, position 0
request 1: span 2, position 0
request 2: span 1, position 1
request 3: span 2, position 1
order=0 value=70 added=0 accepted=0 parallelism=2
order=1 value=72 added=2 accepted=2 parallelism=2
order=2 value=71 added=1 accepted=1 parallelism=2
order=3 value=73 added=3 accepted=3 parallelism=1
TEXT
  refuses 1 "call 4: refused with 8: a place to be set or written is already" "$work/replay_refused"
  refuses 1 "a call: refused with 8: a place to be set or written is already" "$work/storage_refused"
  refuses 1 "call 6: refused with 4: a place has bit 62" "$work/ascending_refused"
  refuses 1 "request 1: refused with 13: the guide alone was asked to place after" "$work/guide_refused"
  for word in x '' 1x -1 +1 ' 1' 65537 99999999999999999999999; do
    refuses 2 "a number of listing bytes is taken, from 0 to 65536, and nothing else" "$work/order_example" "$word"
  done
  refuses 2 "and nothing else" "$work/order_example" 5 5
  refuses 1 "" "$work/order_example" 65536
  refuses 1 "" "$work/needs_example"
  grep -q '^refused with 15 on line 1: a line is malformed' "$work/out" || fail "needs_example on no bytes"
  refuses 1 "" "$work/needs_example" <(head -c 65537 /dev/zero)
  grep -q '^refused with 16 on line 1: the job has more' "$work/out" || fail "needs_example on 65,537 bytes"
  refuses 2 "the job cannot be read" "$work/needs_example" "$work/nothing"
  refuses 2 "the job cannot be read" "$work/needs_example" docs
  refuses 2 "and nothing else" "$work/needs_example" crates/order/stdin crates/order/stdin
  refuses 2 "the answer cannot be written" bash -c "'$work/needs_example' crates/order/stdin >/dev/full"
  refuses 1 "" "$work/reason_example" "$work/waiting.job"
  refuses 0 "" "$work/reason_example" crates/order/stdin
  refuses 1 "" "$work/reason_example"
  grep -q '^refused with 15 on line 1: a line is malformed' "$work/out" || fail "reason_example on no bytes"
  refuses 1 "" "$work/reason_example" <(head -c 65537 /dev/zero)
  grep -q '^refused with 16 on line 1: the job has more' "$work/out" || fail "reason_example on 65,537 bytes"
  refuses 2 "the job cannot be read" "$work/reason_example" "$work/nothing"
  refuses 2 "the job cannot be read" "$work/reason_example" docs
  refuses 2 "and nothing else" "$work/reason_example" crates/order/stdin crates/order/stdin
  refuses 2 "the answer cannot be written" bash -c "'$work/reason_example' '$work/waiting.job' >/dev/full"
  diff /dev/null <("$work/line_end_example" </dev/null) || fail "line_end_example on no bytes"
  refuses 1 "" "$work/line_end_example" <(printf 'set=0\nfinal=1')
  diff - "$work/out" <<'TEXT' || fail "line_end_example where the last byte 10 is missing"
line=1 start=0 end=5
no line from byte 6 on: byte 10 is missing, and a job that ends so is refused
TEXT
  refuses 1 "" "$work/line_end_example" <(head -c 65536 /dev/zero)
  grep -q '^no line from byte 0 on' "$work/out" || fail "line_end_example on 65,536 bytes without a line end"
  refuses 1 "a job has at most 65536 bytes" "$work/line_end_example" <(head -c 65537 /dev/zero)
  refuses 2 "the job cannot be read" "$work/line_end_example" "$work/nothing"
  refuses 2 "the job cannot be read" "$work/line_end_example" docs
  refuses 2 "and nothing else" "$work/line_end_example" crates/order/stdin crates/order/stdin
  refuses 2 "the answer cannot be written" bash -c "'$work/line_end_example' crates/order/stdin >/dev/full"
done
gcc -g -fsanitize=address,undefined -fno-sanitize-recover -Ihosts tests/hosts/storage.c $archives -o "$work/storage"
"$work/storage" || fail "storage with the sanitizers"
echo "hosts: $headers headers, eight examples and replay_storage's test by: ${compilers[*]%% *}; and with sanitizers"

# A host with nothing but pkg-config from the installation, in a folder of its own: shared, static and C++.
elsewhere=$(mktemp -d)
trap 'rm -rf "$elsewhere" "$outside"' EXIT
outside() (
  set -e
  trap 'echo "$0: line $LINENO ended with $?: $BASH_COMMAND" >&2' ERR
  listing=$PWD/crates/order/stdout job=$PWD/crates/order/stdin prints=$PWD/tests/prints.sh
  needs=$work/j1.needs lines=$work/j1.lines waiting=$work/waiting
  export PKG_CONFIG_PATH=$prefix/lib/pkgconfig LD_LIBRARY_PATH=$prefix/lib
  cp "$prefix"/share/order/examples/*.c "$elsewhere"
  cd "$elsewhere"
  [ "$(pkg-config --modversion order)" = "$(cat "$prefix/share/order/VERSION")" ]
  for example in order needs reason line_end replay ascending storage guide; do
    source=${example}_example.c
    gcc -std=c99 $(pkg-config --cflags order) $source $(pkg-config --libs order) -o $example-shared
    gcc -static $(pkg-config --cflags order) $source $(pkg-config --static --libs order) -o $example-static
    ! command -v g++ >/dev/null ||
      g++ -std=c++11 -x c++ $(pkg-config --cflags order) $source -x none $(pkg-config --libs order) -o $example-c++
  done
  for program in order-*; do $(realpath $program) <"$job" | diff - "$listing"; done
  for program in needs-*; do $(realpath $program) <"$job" | diff - "$needs"; done
  for program in reason-*; do { $(realpath $program) "$waiting.job" || [ $? = 1 ]; } | diff - "$waiting.reasons"; done
  for program in line_end-*; do $(realpath $program) <"$job" | diff - "$lines"; done
  for program in replay-* ascending-* storage-*; do
    $(realpath $program) | grep ^order= | diff - <(grep ^order= "$listing")
  done
  for program in guide-*; do $(realpath $program) | grep -c ^order= | grep -qx 4; done
  "$prints" "$prefix/lib/liborder.so" ldd order-shared
  # the prefix may be moved
  mv "$prefix" "$prefix-moved"
  export PKG_CONFIG_PATH=$prefix-moved/lib/pkgconfig LD_LIBRARY_PATH=$prefix-moved/lib
  gcc -std=c99 $(pkg-config --cflags order) storage_example.c $(pkg-config --libs order) -o moved && ./moved >moved.out
  mv "$prefix-moved" "$prefix"
)
if command -v pkg-config >/dev/null; then
  # not in a condition, where a failing command would not end it
  set +e
  outside
  ended=$?
  set -e
  [ $ended -eq 0 ] || fail "a host built from the installation"
  echo "hosts: eight C programs built with pkg-config alone, shared, static and as C++; the prefix may be moved"
else
  echo "hosts: no pkg-config: NOTHING is built from the installation"
fi
# The crate for Rust over the installed library, in a folder of its own.
cp -r hosts/rust "$elsewhere/rust"
ORDER_LIBS=$prefix/lib CARGO_TARGET_DIR=$elsewhere/cargo cargo build --offline --quiet --manifest-path "$elsewhere/rust/Cargo.toml" ||
  fail "the crate for Rust does not link the installed library"
diff crates/order/stdout <("$elsewhere/cargo/debug/order-large" crates/order/stdin) || fail "order-large over the installed library"
echo "hosts: the crate for Rust over the installed library: J1"
exported=$(nm -D --defined-only "$prefix/lib/liborder.so" | awk '$2 == "T" {print $3}' | sort | paste -sd' ')
wanted=$(sed -n 's/^pub extern "C" fn \([a-z_]*\).*/\1/p' crates/*_c/src/lib.rt | sort | paste -sd' ')
[ "$exported" = "$wanted" ] || fail "liborder.so exports '$exported', not '$wanted'"
for call in $exported; do
  grep -qw "$call" hosts/*.h || fail "$call is exported and no header has it"
done
! grep -q TEXTREL <<<"$(readelf -d "$prefix/lib/liborder.so")" || fail "liborder.so has text relocations"
echo "hosts: liborder exports $exported"

# No link of an installed document is dead, and what was plain words there is text.
(cd "$prefix" && python3 "$OLDPWD/.ci/links.py") >"$work/links" || { cat "$work/links" >&2; fail "dead links in the installed documents"; }
[ "$(find "$prefix/share" -name '*.md' | wc -l)" = 8 ] || fail "other documents are installed than the eight"
echo "hosts: the installed documents: $(cat "$work/links")"

# PREFIX that will not do: a sentence, a status, and nothing written.
listed() { find "$work/bad" -printf '%p %s %l\n' | sort; }
unchanged() { [ "$before" = "$(listed)" ] || { diff <(echo "$before") <(listed) >&2; fail "a refused installation has changed something"; }; }
mkdir -p "$work/bad/lib/order" "$work/bad/taken/bin/order" && echo text >"$work/bad/file" && echo text >"$work/bad/lib/pkgconfig"
before=$(listed)
refuses 2 "one PREFIX is needed" tools/install
refuses 2 "one PREFIX is needed" tools/install ""
refuses 2 "one PREFIX is needed" tools/install "$work/bad" "$work/bad"
refuses 2 "unknown option --force" tools/install --force
refuses 2 "unknown option --force" tools/install "$work/bad" --force
refuses 2 "one PREFIX is needed" tools/install --without-large
# without cargo: all commands but that one, in a folder of their own
mkdir "$work/commands"
IFS=: read -ra path <<<"$PATH"
for folder in "${path[@]}"; do cp -sn "$folder"/* "$work/commands/" 2>/dev/null || true; done
rm "$work/commands/cargo"
refuses 1 "cargo is missing, which builds order-large; --without-large" env PATH="$work/commands" tools/install "$work/bad"
refuses 1 "file is there and is no folder" tools/install "$work/bad/file"
refuses 1 "file is there and is no folder" tools/install "$work/bad/file/below"
refuses 1 "pkgconfig is there and is no folder" tools/install "$work/bad"
refuses 1 "bin/order is a folder" tools/install "$work/bad/taken"
refuses 1 "cannot be made" tools/install /proc/order/prefix
unchanged
# a folder that may not be written; root may write all, and so goes as nobody
mkdir "$work/bad/closed" && chmod 555 "$work/bad/closed"
before=$(listed)
nobody=
[ ! -w "$work/bad/closed" ] || nobody='setpriv --reuid=65534 --regid=65534 --clear-groups'
if $nobody test -r tools/install && $nobody test -x "$work/bad/closed"; then
  refuses 1 "closed may not be written" $nobody tools/install "$work/bad/closed"
else
  echo "hosts: nobody may not read the repository: NOT tried on a folder that may not be written"
fi
# a file system that takes no more: files end at 8 KB
refuses 1 "nothing is installed" bash -c "trap '' XFSZ; ulimit -f 8; tools/install '$work/bad/full/deep'"
unchanged
# a move that fails among the others, over an installation and into a folder with nothing: all is as it was before
mkdir -p "$work/moves" "$work/bad/over/bin" "$work/bad/empty"
echo old >"$work/bad/over/bin/order-job" && ln -s nowhere "$work/bad/over/bin/order-picture"
cat >"$work/moves/mv" <<END
#!/bin/bash
echo >>"$work/moves/count"
[ "\$(wc -l <"$work/moves/count")" != 12 ] || exit 1
exec $(command -v mv) "\$@"
END
chmod +x "$work/moves/mv"
before=$(listed)
for folder in over empty new/deep; do
  rm -f "$work/moves/count"
  refuses 1 "cannot be put there; nothing is installed" env PATH="$work/moves:$PATH" tools/install "$work/bad/$folder"
done
[ "$(cat "$work/bad/over/bin/order-job")" = old ] || fail "a file that was written over is not put back"
unchanged
tests/prints.sh PREFIX tools/install --help || fail "tools/install --help"
echo "hosts: seventeen installations refused in words, nothing written"
PATH=$work/commands tools/install --without-large "$work/small" >"$work/install.log" || fail "tools/install --without-large"
grep -qx '  without order-large' "$work/install.log" || fail "tools/install does not say that order-large is left out"
diff <(cd "$prefix" && find . ! -path ./bin/order-large | sort) <(cd "$work/small" && find . | sort) || fail "--without-large leaves out more"

# The command around the program, as installed.
command=$prefix/bin/order-job
diff crates/order/stdout <("$command" crates/order/stdin) || fail "order-job FILE"
diff crates/order/stdout <("$command" --words <crates/order/stdin) || fail "order-job on standard input"
printf '%s\n' parallelism=2 places=3 set=0 set=0 final=1 >"$work/refused.job"
refuses 1 "4 | set=0" "$command" --words "$work/refused.job"
refuses 1 "order-job: line 4: refused with 8 (taken_place): a place to be set" "$command" --words "$work/refused.job"
diff <(printf '%s\n' status=8 line=4) "$work/out" || fail "order-job prints something else for a refused job"
refuses 1 "order-job: line 4: refused with 8" "$command" "$work/refused.job" --words
refuses 1 "order-job: line 4: refused with 8" "$command" --words -- "$work/refused.job"
refuses 2 "--words: there is no such file" "$command" -- --words
refuses 1 "" "$command" "$work/refused.job"
[ ! -s "$work/said" ] || fail "order-job without --words is not silent"
refuses 1 "     1 | (the job ends before this line)" "$command" --words /dev/null
refuses 1 "order-job: registration 0 waits: its greatest input is 3, and place 0 is the lowest untracked one" "$command" --words "$work/waiting.job"
diff "$work/waiting.reasons" <(for r in 0 2; do "$prefix/bin/order_reason" $r <"$work/waiting.job" | paste -sd' ' | sed "s/status=0/registration=$r/"; done) ||
  fail "order_reason as installed"
refuses 2 "there is no such file" "$command" "$work/nothing"
refuses 2 "is a directory" "$command" docs
refuses 2 "unknown option --nothing" "$command" --nothing
refuses 2 "one file at most" "$command" a b
refuses 2 "one file at most" "$command" a --words b
refuses 2 "unknown option --nothing" "$command" "$work/refused.job" --nothing
refuses 2 "cannot be printed" bash -c "'$command' crates/order/stdin >/dev/full"
refuses 2 "cannot be printed" bash -c "'$command' crates/order/stdin >&-"
refuses 2 "cannot be read" bash -c "'$command' <&-"
refuses 2 "Broken pipe" bash -c "set -o pipefail; (sleep 0.5; '$command' crates/order/stdin) | exec sleep 0"
refuses 2 "the stack has 300 KB" bash -c "ulimit -s 300; '$command' crates/order/stdin"
diff crates/order/stdout <(ulimit -Ss 300; "$command" crates/order/stdin) || fail "order-job does not raise the limit of the stack"
tests/prints.sh usage "$command" --help || fail "order-job --help"
[ "$("$command" --version)" = "order-job $(cat VERSION)" ] || fail "order-job --version"
[ "$(hosts/order-job --version)" = "order-job $(cat VERSION)" ] || fail "hosts/order-job --version"
"$command" crates/order/stdin | "$prefix/bin/order-picture" >/dev/null || fail "order-picture"
refuses 2 "order-picture: no listing on standard input" "$prefix/bin/order-picture"
tests/prints.sh "| order-picture --svg [JOB]" "$prefix/bin/order-picture" --help || fail "order-picture --help"
diff examples/wide.job <("$prefix/bin/order-circuit" wide 60 --parallelism 16) || fail "order-circuit"
refuses 2 "order-circuit: wide 16777217 has" "$prefix/bin/order-circuit" wide 16777217
diff -r examples "$prefix/share/order/examples" >"$work/examples" || true
! grep -v '^Only in .*_example\.c$\|^diff .*README\.md\|^[<>0-9-]' "$work/examples" || fail "the installed examples are others"
diff crates/order/stdout <("$prefix/bin/order-large" crates/order/stdin) || fail "order-large as installed"
[ "$("$prefix/bin/order-large" --version)" = "order-large $(cat VERSION)" ] || fail "order-large --version"
# A refusal in words is the same by order-job and by order-large, but for the name: jobs that both refuse for the same.
jobs=("$work/refused.job" "$work/waiting.job" /dev/null)
for job in examples/refused/*.job; do
  case $job in */too-many-places.job | */full-pool.job) ;; *) jobs+=("$job") ;; esac
done
head='parallelism=2\nplaces=6\n' long=$(seq -s, 100)
for text in 'parallelism=2' '\n' 'parallelism=2\nplaces=x\n' 'parallelism=2\nplaces=0\n' "$head" "${head}in=1" "${head}in=1,\n" \
  "${head}in=1\n" "${head}in=1\nin=2\n" "${head}in=1\nout=2" "${head}in=\nout=1,1\n" "${head}in=$long\nout=9\n" "${head}in=$long,\n" \
  "${head}in=$long," "${head}set=$long\n" "${head}set=\t\e[2J\r\0\377\\\n" "${head}final=1\nfinal=1\n" "${head}final=1" "${head}\n" \
  "${head}lane=256\nin=1\nout=2\n" "${head}lane=255\nin=6\nout=2\n" "${head}lane=1\nset=0\n" "${head}lane=1\n" "${head}lane=1" \
  "${head}lane=1\nin=1,\n" "${head}lane=1\nin=1" "${head}lane=1\nlane=1\n" "${head}lane=01\n" "${head}in=\nlane=1\nout=1\n" \
  "lane=1\n$head" "parallelism=2\nlane=1\n" "${head}in=\nout=0\nin=0\nout=\nset=5\nin=0,5,4\nout=1\nfinal=1\n" \
  "${head}in=5\nout=5\nfinal=1\n"; do
  printf "$text" >"$work/words.${#jobs[@]}.job"
  jobs+=("$work/words.${#jobs[@]}.job")
done
for job in "${jobs[@]}"; do
  refuses 1 "order-job: " "$command" --words "$job"
  { cat "$work/out"; sed 's/^order-job: /order-large: /' "$work/said"; } >"$work/wanted"
  refuses 1 "order-large: " "$prefix/bin/order-large" --words "$job"
  cat "$work/out" "$work/said" | tests/same.sh - "$work/wanted" || fail "$job: other words by order-large than by order-job"
done
echo "hosts: ${#jobs[@]} refusals in words, the same by order-job and order-large"
# The module for Python, as installed: J1 by the installed library.
diff <(cat crates/order/stdout && echo "4 7 0 40 13 2 0 [21] $prefix/lib/liborder.so") <(
  env -u ORDER_LIBS PYTHONDONTWRITEBYTECODE=1 PYTHONPATH="$prefix/share/order/python" python3 -c '
import sys, witness_order, witness_order.libraries
job = sys.stdin.read()
print(witness_order.run_job(job), end="")
waiting = witness_order.Calls().add([2], [1])
breach = witness_order.replay_ascending(2, 6, waiting).numbers
print(*witness_order.job_needs(job), witness_order.line_end(job), *witness_order.reason(2, 6, waiting, 0), breach, witness_order.libraries.path())' <crates/order/stdin) ||
  fail "the module for Python as installed"
echo "hosts: the module for Python as installed: J1"
echo "hosts: order-job: listings as the program prints them, refusals and failures in words with their status"

python3 .ci/transcripts.py README.md docs/JOB.md docs/HOSTS.md docs/GUIDE.md
