#!/bin/bash
# counts.sh: instructions that a thing takes, by callgrind, as a table. They do not drift with the machine's load.
# A count is a tenth of what ten more times add, so that what comes before the thing is not in it.
set -eu
command -v valgrind > /dev/null || apt-get install -y valgrind > /dev/null
bench=target/bench/bench

collected() {
    valgrind --tool=callgrind --callgrind-out-file=/dev/null "$bench" --times "$@" 2>&1 | sed -n 's/.*Collected : //p'
}

echo '| what | crate, SSE file | crate, portable file | library | library beside portable file |'
echo '|---|---|---|---|---|'
for name in permutation inverse 'hash of 4080' 'hash squeeze 4080' 'absorb 4080' 'squeeze 4080' \
    'seal in place 16' 'open in place 16' 'seal in place 64' 'open in place 64' 'seal in place 4080' 'open in place 4080' \
    'fed in pieces of 24, 4080' 'back over seal in place 4080'; do
    counts=()
    for form in sse portable port; do
        counts+=($((($(collected 11 "$form" "$name") - $(collected 1 "$form" "$name")) / 10)))
    done
    # what a form does not have costs next to nothing
    ratio=-
    [ "${counts[1]}" -lt 100 ] || ratio=$(awk "BEGIN { printf \"%.2f\", ${counts[2]} / ${counts[1]} }")
    for i in 0 1; do [ "${counts[$i]}" -ge 100 ] || counts[$i]=-; done
    echo "| $name | ${counts[0]} | ${counts[1]} | ${counts[2]} | $ratio |"
done
