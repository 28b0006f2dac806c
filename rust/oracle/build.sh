#!/usr/bin/env bash
# Builds target/oracle/oracle: the transcript runner over the original crate, unchanged, from the folder XOODYAK_SRC.
set -euo pipefail
cd "$(dirname "$0")/../.."
source rust/oracle/original.sh

original target/oracle
compile_original target/oracle/xoodyak xoodyak target/oracle/libxoodyak.rlib
rustc --edition 2021 -C opt-level=3 -L target/oracle --extern xoodyak=target/oracle/libxoodyak.rlib \
    -o target/oracle/oracle rust/oracle/oracle.rs || stop "the oracle does not build"
say "built target/oracle/oracle"
