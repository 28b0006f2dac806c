#!/usr/bin/env bash
# Builds target/bench/bench: three builds of the original crate, and the drop-in crate over the archive.
set -euo pipefail
cd "$(dirname "$0")/../.."
source rust/oracle/original.sh
out=target/bench
archive=target/staticlib/libcapi.a

original "$out"
# The portable form: the same source with the two conditions that choose between the files swapped.
rm -rf "$out/portable"
cp -r "$out/xoodyak" "$out/portable"
sed -i 's/^#\[cfg(not(target_arch = "x86_64"))\]$/#[cfg(all())]/; s/^#\[cfg(target_arch = "x86_64")\]$/#[cfg(any())]/' \
    "$out/portable/src/xoodoo/mod.rs"
[ "$(diff "$out/xoodyak/src/xoodoo/mod.rs" "$out/portable/src/xoodoo/mod.rs" | grep -c '^>')" = 2 ] ||
    stop "the two conditions that choose the permutation's file were not found"

# measured NAME LIBRARY FLAGS..: what is measured of one crate with the original's interface.
measured() {
    local name=$1 library=$2
    shift 2
    rustc --edition 2021 --crate-type rlib --crate-name "crate_$name" -C opt-level=3 -L "$out" --extern "xoodyak=$library" \
        -o "$out/libcrate_$name.rlib" "$@" rust/bench/variant.rs || stop "rust/bench/variant.rs does not build: $name"
    say "built $name"
}
# variant NAME SOURCE-DIR FLAGS..: one build of the original, and what is measured of it, with the same flags.
variant() {
    local name=$1 source=$2
    shift 2
    compile_original "$source" "xoodyak_$name" "$out/libxoodyak_$name.rlib" "$@"
    measured "$name" "$out/libxoodyak_$name.rlib" "$@"
}
variant sse "$out/xoodyak"
variant portable "$out/portable"
variant native "$out/xoodyak" -C target-cpu=native

# The drop-in crate over the archive, at the default target.
[ -f "$archive" ] || stop "no $archive: run \`make lib\`"
drop_in=$out/libxoodyak_port.rlib
rustc --edition 2021 --crate-type rlib --crate-name xoodyak_port -C opt-level=3 --cfg 'feature="std"' \
    -L "$(dirname "$archive")" -l static=capi -o "$drop_in" rust/xoodyak/src/lib.rs || stop "the drop-in crate does not build"
measured port "$drop_in"

rustc --edition 2021 -C opt-level=3 -L "$out" --extern "crate_sse=$out/libcrate_sse.rlib" \
    --extern "crate_portable=$out/libcrate_portable.rlib" --extern "crate_native=$out/libcrate_native.rlib" \
    --extern "crate_port=$out/libcrate_port.rlib" --extern "xoodyak=$drop_in" -o "$out/bench" rust/bench/bench.rs ||
    stop "the benchmark does not build"
say "built $out/bench; run it for the table"
