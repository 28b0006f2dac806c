# Gets the original crate ready to build, with Debian's zeroize. Sourced by the build scripts.
# After `original DIR`, DIR/xoodyak/src is the original's source, unchanged, and DIR/libzeroize.rlib stands.

say() { echo "$0: $*"; }
stop() { echo "$0: $*" >&2; exit 1; }

original() {
    local dir=$1 source=${XOODYAK_SRC:-../shared/docs/src} zeroize
    [ -f "$source/src/lib.rs" ] || stop "no src/lib.rs in '$source': set XOODYAK_SRC to the original crate's folder"
    command -v rustc > /dev/null || stop "no rustc found"
    if ! ls -d /usr/share/cargo/registry/zeroize-[0-9]* > /dev/null 2>&1; then
        say "installing librust-zeroize-dev"
        apt-get install -y -q librust-zeroize-dev > /dev/null 2>&1 ||
            { apt-get update -q > /dev/null && apt-get install -y -q librust-zeroize-dev > /dev/null; } ||
            stop "librust-zeroize-dev could not be installed"
    fi
    zeroize=$(ls -d /usr/share/cargo/registry/zeroize-[0-9]* | tail -n 1)
    mkdir -p "$dir"
    rm -rf "$dir/xoodyak"
    mkdir "$dir/xoodyak"
    cp -r "$source/src" "$dir/xoodyak/src"
    # The original's lib.rs includes a README.md that its source folder does not have.
    echo "The original crate's README.md is not part of its source here." > "$dir/xoodyak/README.md"
    say "the original from $source, zeroize from $zeroize"
    rustc --edition 2021 --crate-type rlib --crate-name zeroize -C opt-level=3 --cap-lints allow \
        --cfg 'feature="alloc"' -o "$dir/libzeroize.rlib" "$zeroize/src/lib.rs" || stop "zeroize does not build"
}

# compile_original SOURCE-DIR CRATE-NAME OUTPUT FLAGS..: with its default feature, optimised as cargo's release is.
compile_original() {
    local source=$1 name=$2 output=$3
    shift 3
    rustc --edition 2018 --crate-type rlib --crate-name "$name" -C opt-level=3 --cap-lints allow \
        --cfg 'feature="std"' --extern "zeroize=$(dirname "$output")/libzeroize.rlib" \
        -o "$output" "$@" "$source/src/lib.rs" ||
        stop "the original crate does not build"
}
