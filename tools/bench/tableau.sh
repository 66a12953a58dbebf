#!/usr/bin/env bash
# The processor time of pivots, of the built program beside the same loops in plain Rust.
set -e
cd "$(dirname "$0")/../.."
rounds=${1:-1000}
work=$(mktemp -d)
trap 'rm -r "$work"' EXIT
rustc --edition 2021 -O -o "$work/plain" tools/bench/tableau.rs
(cd crates/ipsens_bench && rt run -- tableau 1 >/dev/null 2>&1)
TIMEFORMAT=%U

# Milliseconds of the least of five runs.
least() {
    for _ in 1 2 3 4 5; do
        { time "$@" >"$work/text"; } 2>&1
    done | sort -n | awk 'NR == 1 { print int($1 * 1000) }'
}

for program in "crates/ipsens_bench/out/ipsens_bench tableau" "$work/plain"; do
    read -ra command <<<"$program"
    taken=$(($(least "${command[@]}" "$((rounds + 1))") - $(least "${command[@]}" 1)))
    echo "$(basename "${command[0]}"): checksum $(cat "$work/text"), $taken ms for $rounds pivots"
    echo "$taken" >>"$work/times"
    cat "$work/text" >>"$work/sums"
done
[ "$(sort -u "$work/sums" | wc -l)" = 1 ] || { echo "the checksums differ"; exit 1; }
awk 'NR == 1 { proved = $1 } NR == 2 { printf "time of the proved program over plain Rust: %.2f\n", proved / $1 }' "$work/times"
