#!/usr/bin/env bash
# gate.sh: the verdict of `rt ci`, which proves every crate from nothing, tries every wrong program and runs every program. It fails
# where that fails, and where an edit of must-fail/ shows nothing: it no longer fits the text, or only took a name away that a proof cites.
set -euo pipefail
cd "$(dirname "$0")/.."
mkdir -p target
rt ci 2>&1 | tee target/ci.log
if grep -Eq '^rt: ok.*, [1-9][0-9]* bad' target/ci.log || grep -q 'only because a proof file names' target/ci.log; then
    echo "an edit of must-fail/ shows nothing: see BAD EDIT and 'only because' above" >&2
    exit 1
fi
