#!/bin/bash
# Builds the oracle: the Rust of ../shared/docs/src (from the repository's root; ORACLE_SOURCE names
# another place), with the shims and the driver that stand beside this script, by rustc alone.
# Everything that is made lies under target/oracle. What is changed in the Rust on the way is below,
# edit by edit; each edit must meet exactly the lines that it is meant for.
#
#   oracle/build.sh              target/oracle/oracle: optimised, as a release build
#   oracle/build.sh --checked    target/oracle/oracle-checked: overflow and debug assertions on
#   oracle/build.sh --hashed     target/oracle/oracle-hashed: the registrar with its own HashMap
#   oracle/build.sh --as-given   shows that the guide does not compile as it is given
set -euo pipefail
cd "$(dirname "$0")/.."

source=${ORACLE_SOURCE:-../shared/docs/src}
fail() { echo "oracle/build.sh: $*" >&2; exit 1; }

name=oracle checks=off ordered=yes mended=yes
case "${1:-}" in
  '') ;;
  --checked) name=oracle-checked checks=on ;;
  --hashed) name=oracle-hashed ordered=no ;;
  --as-given) name=oracle-as-given mended=no ;;
  *) fail "unknown option $1" ;;
esac
command -v rustc >/dev/null || fail "rustc is missing"
[ -d "$source/src/dag" ] || fail "no Rust source at $source (ORACLE_SOURCE names another place)"
(cd "$source" && sha256sum --check --quiet) <oracle/source.sha256 ||
  fail "the Rust at $source is not the commit that the oracle was written for"

# What was built from the same files by the same compiler is kept.
stamp=$({ cat oracle/build.sh oracle/source.sha256 oracle/{shims,driver}/*.rs; rustc -vV; } | sha256sum)
kept=$(cat "target/oracle/$name.stamp" 2>/dev/null) || true
if [ -x "target/oracle/$name" ] && [ "$kept" = "$stamp" ]; then
  echo "oracle/build.sh: target/oracle/$name is ready"
  exit 0
fi

tree=target/oracle/tree-$name
rm -rf "$tree" "target/oracle/$name"
mkdir -p "$tree"/{cs/traits,field,dag/resolvers/mt/sorters}

# edit FILE COUNT OLD NEW: in FILE, the COUNT lines that are OLD become NEW.
edit() {
  local found
  found=$(grep -cxF -- "$3" "$tree/$1") || true
  [ "$found" = "$2" ] || fail "$1: expected $2 lines '$3', found $found"
  OLD=$3 NEW=$4 awk '$0 == ENVIRON["OLD"] { $0 = ENVIRON["NEW"] } { print }' \
    "$tree/$1" >"$tree/edited"
  mv "$tree/edited" "$tree/$1"
}

# Files taken whole and unchanged.
for file in log_utils dag/mod dag/awaiters dag/primitives dag/resolver_box dag/resolvers/mt/mod \
  dag/resolvers/mt/sorters/mod dag/resolvers/mt/sorters/sorter_live; do
  cp "$source/src/$file.rs" "$tree/$file.rs"
done

# The guide does not compile as given (E0392: Cfg of SpansGuide stands in no field). Readers of its
# private fields are appended.
cat "$source/src/dag/guide.rs" oracle/shims/guide_accessors.rs >"$tree/dag/guide.rs"
if [ $mended = yes ]; then
  edit dag/guide.rs 1 '    phantom: PhantomData<F>,' '    phantom: PhantomData<(F, Cfg)>,'
fi

# The registrar walks its HashMap in no fixed order; the ordered copy takes the places ascending.
cp "$source/src/dag/resolvers/mt/registrar.rs" "$tree/dag/resolvers/mt/registrar.rs"
if [ $ordered = yes ]; then
  edit dag/resolvers/mt/registrar.rs 1 \
    'use std::collections::HashMap;' 'use std::collections::BTreeMap as HashMap;'
fi

# The crate derivative is not at hand: the standard derives say the same here.
cp "$source/src/config.rs" "$tree/config.rs"
edit config.rs 1 'use derivative::*;' ''
edit config.rs 11 '#[derive(Derivative)]' ''
edit config.rs 11 '#[derivative(Clone, Copy, Debug)]' '#[derive(Clone, Copy, Debug)]'

# Of cs/mod.rs Place, Variable and Witness; of cs/traits/cs.rs the destination buffer and the
# witness source; of utils.rs the two extension traits.
{ cat oracle/shims/cs_head.rs; sed -n '32,214p;405,417p' "$source/src/cs/mod.rs"; } \
  >"$tree/cs/mod.rs"
edit cs/mod.rs 3 '#[derive(Derivative, serde::Serialize, serde::Deserialize)]' ''
edit cs/mod.rs 1 '#[derivative(Clone, Copy, PartialEq, Eq, Hash)]' \
  '#[derive(Clone, Copy, PartialEq, Eq, Hash)]'
edit cs/mod.rs 2 '#[derivative(Clone, Copy, Debug, PartialEq, Eq, Hash)]' \
  '#[derive(Clone, Copy, Debug, PartialEq, Eq, Hash)]'
{ cat oracle/shims/cs_traits_cs_head.rs; sed -n '9,58p' "$source/src/cs/traits/cs.rs"; } \
  >"$tree/cs/traits/cs.rs"
sed -n '232,292p' "$source/src/utils.rs" >"$tree/utils.rs"

# Our own: what the Rust leans on and is not here, and the driver.
cp oracle/shims/cs_traits.rs "$tree/cs/traits/mod.rs"
cp oracle/shims/field.rs "$tree/field/mod.rs"
cp oracle/shims/resolvers.rs "$tree/dag/resolvers/mod.rs"
cp oracle/shims/resolution_window.rs "$tree/dag/resolvers/mt/resolution_window.rs"
cp oracle/shims/sorter_playback.rs "$tree/dag/resolvers/mt/sorters/sorter_playback.rs"
cp oracle/driver/runs.rs "$tree/dag/resolvers/runs.rs"
cp oracle/driver/main.rs "$tree/main.rs"

# The Rust is written for a nightly compiler; its warnings are not ours to mend.
export RUSTC_BOOTSTRAP=1
compile() {
  rustc --edition 2021 --cap-lints allow -C opt-level=3 \
    -C debug-assertions=$checks -C overflow-checks=$checks "$@"
}
for crate in smallvec itertools; do
  compile --crate-type rlib --crate-name $crate -o "$tree/lib$crate.rlib" oracle/shims/$crate.rs
done
compile --crate-name oracle --extern smallvec="$tree/libsmallvec.rlib" \
  --extern itertools="$tree/libitertools.rlib" -o "target/oracle/$name" "$tree/main.rs"
echo "$stamp" >"target/oracle/$name.stamp"
echo "oracle/build.sh: target/oracle/$name is ready"
