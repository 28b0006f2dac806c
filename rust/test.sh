#!/usr/bin/env bash
# Builds and runs the Rust and C side over the archive: one program against both crates, the two crates side by side, what the
# proved crate has beside, the example, the texts' examples, and the C program. Needs rustc, cargo and cc; LAFOMEIHU_LIB names the
# folder of libcapi.a (made by `make lib`), CALLS and SEEDS the size of the comparison.
set -euo pipefail
cd "$(dirname "$0")/.."
source rust/oracle/original.sh
out=target/rust
lib=${LAFOMEIHU_LIB:-target/staticlib}

# need COMMAND PACKAGE: a command, from Debian's package where it is not there.
need() {
    command -v "$1" > /dev/null && return
    say "installing $2"
    apt-get install -y -q "$2" > /dev/null 2>&1 ||
        { apt-get update -q > /dev/null && apt-get install -y -q "$2" > /dev/null; } || stop "$2 could not be installed"
}
need rustc rustc
need rustdoc rustc
need cargo cargo
need cc gcc
need c++ g++
need valgrind valgrind

[ -f "$lib/libcapi.a" ] || stop "no $lib/libcapi.a: run \`make lib\`, or set LAFOMEIHU_LIB to its folder"
missing=$(comm -23 <(grep -o 'lafomeihu_[a-z_]*(' include/lafomeihu.h | tr -d '(' | sort -u) \
    <(nm -g "$lib/libcapi.a" | sed -n 's/.* T //p' | sort -u))
[ -z "$missing" ] || stop "the archive lacks what include/lafomeihu.h declares:" $missing
# Nothing holds the Rust declarations against the header but this: the same names, no more and no fewer.
diff <(grep -o 'lafomeihu_[a-z_]*(' include/lafomeihu.h | sort -u) \
    <(grep -o 'fn lafomeihu_[a-z_]*(' rust/xoodyak/src/archive.rs | cut -c 4- | sort -u) ||
    stop "rust/xoodyak/src/archive.rs and include/lafomeihu.h declare different functions"

original "$out"
compile_original "$out/xoodyak" xoodyak_original "$out/libxoodyak_original.rlib"

# rust SOURCE OUTPUT FLAGS..: with warnings as errors.
rust() {
    local source=$1 output=$2
    shift 2
    rustc --edition 2021 -D warnings -C opt-level=3 -L "$out" -o "$output" "$@" "$source" || stop "$source does not build"
}
crate=(--crate-type rlib -L "$lib" -l static=capi)
rust rust/xoodyak/src/lib.rs "$out/libxoodyak_bare.rlib" --crate-name xoodyak_bare "${crate[@]}"
rust rust/xoodyak/src/lib.rs "$out/libxoodyak_proved.rlib" --crate-name xoodyak_proved "${crate[@]}" --cfg 'feature="std"'
theirs=$out/libxoodyak_original.rlib
ours=$out/libxoodyak_proved.rlib

say "one program, both crates, by one line of Cargo.toml"
LAFOMEIHU_LIB=$(realpath "$lib")
export LAFOMEIHU_LIB
zeroize=$(ls -d /usr/share/cargo/registry/zeroize-[0-9]* | tail -n 1)
# package FOLDER NAME VERSION EDITION DEPENDENCY: a Cargo.toml with one dependency.
package() {
    printf '[package]\nname = "%s"\nversion = "%s"\nedition = "%s"\n\n[dependencies]\n%s\n\n[features]\ndefault = ["std"]\nstd = []\n\n[workspace]\n' \
        "$2" "$3" "$4" "$5" > "$1/Cargo.toml"
}
package "$out/xoodyak" xoodyak 0.8.5 2018 "zeroize = { path = \"$zeroize\", default-features = false, features = [\"alloc\"] }"
# The drop-in crate is built on a copy, because cargo writes a Cargo.lock beside Cargo.toml.
rm -rf "$out/user" "$out/packaged"
mkdir -p "$out/user/src"
cp -r rust/xoodyak "$out/packaged"
cp rust/tests/program.rs "$out/user/src/main.rs"
# user FOLDER: runs the program over the crate in that folder.
user() {
    package "$out/user" user 0.1.0 2021 "xoodyak = { path = \"$(realpath "$1")\" }"
    cargo run --offline --quiet --manifest-path "$out/user/Cargo.toml" --target-dir "$out/cargo" || stop "the program fails over $1"
}
user "$out/xoodyak" > "$out/program_original.txt"
user "$out/packaged" > "$out/program_proved.txt"
diff "$out/program_original.txt" "$out/program_proved.txt" || stop "the program prints other lines over the proved crate"
cat "$out/program_proved.txt"

say "the two crates side by side"
rust rust/tests/beside.rs "$out/beside" --extern "original=$theirs" --extern "proved=$ours"
for seed in ${SEEDS:-1 2 3}; do
    "$out/beside" "${CALLS:-200000}" "$seed" || stop "the crates differ: seed $seed"
done

say "beside the original"
rust rust/tests/more.rs "$out/more" --extern "xoodyak=$ours"
"$out/more"
rust rust/xoodyak/examples/records.rs "$out/records" --extern "xoodyak=$ours"
"$out/records"
rustdoc --edition 2021 --test --crate-name xoodyak --cfg 'feature="std"' -L "$out" --extern "xoodyak=$ours" \
    rust/xoodyak/src/lib.rs || stop "an example in the crate's text fails"

say "from C, under valgrind"
c++ -x c++ -std=c++11 -Wall -Wextra -Wpedantic -Werror -fsyntax-only include/lafomeihu.h || stop "the header does not fit C++"
cc -std=c11 -Wall -Wextra -Wpedantic -Werror -O2 -g -Iinclude -o "$out/seal" rust/tests/seal.c "$lib/libcapi.a" ||
    stop "rust/tests/seal.c does not build"
valgrind --quiet --error-exitcode=1 --leak-check=full "$out/seal" || stop "the C program fails"
say "all of it passed"
