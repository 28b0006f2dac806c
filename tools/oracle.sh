#!/usr/bin/env bash
# Compares a program's answers with the original crate's on random transcripts: tools/oracle.sh REPLAY-COMMAND SEED..
# REPLAY-COMMAND reads a transcript on standard input.
# LINES (20000) and KINDS (x, sessions or all) come from the environment.
set -euo pipefail
cd "$(dirname "$0")/.."
export LC_ALL=C
[ $# -ge 2 ] || { echo "usage: [LINES=n] [KINDS=x|sessions|all] tools/oracle.sh REPLAY-COMMAND SEED.." >&2; exit 2; }
command=$1
shift
lines=${LINES:-20000} kinds=${KINDS:-all} total=0
run=target/oracle/run
mkdir -p "$run"

for seed in "$@"; do
    python3 tools/transcripts.py random "$seed" "$lines" "$kinds" "$run/transcript" "$run/expected"
    bash -c "$command" < "$run/transcript" > "$run/answers" || { echo "seed $seed: '$command' failed" >&2; exit 1; }
    if ! diff --text "$run/expected" "$run/answers" > "$run/difference"; then
        # The first difference's header, as 12c12 or 12,14d11, begins with the answer's place; 12a13 means one further.
        header=$(head -n 1 "$run/difference")
        at=$(grep -o '^[0-9]*' <<< "$header")
        [[ $header == *a* ]] && at=$((at + 1))
        echo "seed $seed: the first difference is at answer $at"
        echo "  line:     $(grep -a -v -e '^#' -e '^$' "$run/transcript" | sed -n "${at}p" | cut -c 1-400)"
        echo "  original: $(sed -n "${at}p" "$run/expected" | cut -c 1-400)"
        echo "  program:  $(sed -n "${at}p" "$run/answers" | cut -c 1-400)"
        exit 1
    fi
    total=$((total + $(wc -l < "$run/expected")))
done
echo "oracle: $total answers equal over $# seeds ($kinds: $*)"
