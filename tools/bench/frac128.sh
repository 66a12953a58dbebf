#!/bin/bash
# Times products and differences of fractions, as proved and in plain Rust, in one run, by processor time:
#     tools/bench/frac128.sh [ROUNDS]
# `rt run -- fractions whole 1` in crates/ipsens_bench builds the proved program first.
set -eu
top=$(cd "$(dirname "$0")/../.." && pwd)
rounds=${1:-100000000}
plain=$(mktemp)
trap 'rm -f "$plain" "$plain.time"' EXIT
rustc -O --edition 2021 -o "$plain" "$top/tools/bench/frac128.rs"

# Prints the checksum of a program at a kind of fractions, and the seconds that it took.
measure() {
    local TIMEFORMAT=%U
    { time "$@" "$rounds"; } 2> "$plain.time"
    cat "$plain.time"
}

for kind in whole small long; do
    proved=($(measure "$top/crates/ipsens_bench/out/ipsens_bench" fractions $kind))
    same=($(measure "$plain" $kind))
    if [ "${proved[0]}" != "${same[0]}" ]; then
        echo "$kind: the checksums differ: ${proved[0]} and ${same[0]}"
        exit 1
    fi
    awk -v kind=$kind -v a="${proved[1]}" -v b="${same[1]}" -v n="$rounds" \
        'BEGIN { printf "%-6s proved %6.1f ns, plain %6.1f ns, ratio %.2f\n", kind, a / n * 1e9, b / n * 1e9, a / b }'
done
