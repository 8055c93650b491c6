#!/bin/sh
# build.sh FOLDER OUT [MAP]: builds OUT/original from the original's source in
# FOLDER (it holds src/propagation) and the stand-ins beside this script.
# MAP is the kind of map for tags: BTreeMap (if left out) or HashMap, which is
# the original's own.
set -eu

if [ $# -lt 2 ] || [ $# -gt 3 ]; then
    echo "usage: build.sh FOLDER OUT [BTreeMap|HashMap]" >&2
    exit 2
fi
from=$1/src/propagation
out=$2
map=${3:-BTreeMap}
stand_ins=$(cd "$(dirname "$0")" && pwd)/stand-ins
build=$out/build

case $map in
    BTreeMap | HashMap) ;;
    *) echo "unknown kind of map: $map" >&2; exit 2 ;;
esac

rm -rf "$build"
mkdir -p "$build"
cp -R "$stand_ins/." "$build"
echo "pub type Tags = std::collections::$map<String, String>;" >"$build/tags.rs"

# Carriers and errors stay as they are.
cp "$from/carrier.rs" "$from/error.rs" "$build/propagation/"

# Tags become ordered; inner functions can be called from outside; the one
# function that is there for the original's tests is compiled too.
for file in tracecontext datadog context; do
    sed -e "s/HashMap/$map/g" \
        -e 's/^fn /pub(crate) fn /' \
        -e 's/^    fn valid_/    pub(crate) fn valid_/' \
        -e '/^#\[cfg(test)\]$/d' \
        "$from/$file.rs" >"$build/propagation/$file.rs"
done

# Of mod.rs come the interface for settings and the joining of constants.
sed -n -e '/^pub trait PropagationConfig/,/^}/p' -e '/const fn const_append/,$p' \
    "$from/mod.rs" >>"$build/propagation/mod.rs"

cd "$build"
rustc --edition 2021 --crate-type proc-macro --crate-name thiserror crates/thiserror.rs
rustc --edition 2021 --crate-type rlib --crate-name opentelemetry crates/opentelemetry.rs
rustc --edition 2021 -O --crate-name original -L . \
    --extern thiserror="$(ls libthiserror.*)" --extern opentelemetry=libopentelemetry.rlib \
    -o original main.rs
mv original ../original
