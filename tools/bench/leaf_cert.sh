#!/usr/bin/env bash
# Entries per second of leaf bounds, by processor time: the built program beside the same loops in plain Rust.
set -e
cd "$(dirname "$0")/../.."
rounds=${1:-20000}
entries=$((200 * 50))
work=$(mktemp -d)
trap 'rm -r "$work"' EXIT
rustc --edition 2024 -O -o "$work/plain" tools/bench/leaf_cert.rs
(cd crates/ipsens_bench && rt run -- certificates 1 >/dev/null 2>&1)
TIMEFORMAT=%U

# Milliseconds of the least of five runs.
least() {
    for _ in 1 2 3 4 5; do
        { time "$@" >"$work/text"; } 2>&1
    done | sort -n | awk 'NR == 1 { print int($1 * 1000) }'
}

for program in "crates/ipsens_bench/out/ipsens_bench certificates" "$work/plain"; do
    read -ra command <<<"$program"
    taken=$(($(least "${command[@]}" "$rounds") - $(least "${command[@]}" 1)))
    echo "$(basename "${command[0]}"): $(cat "$work/text"), $((entries * rounds / taken / 1000)) million entries per second"
    echo "$taken" >>"$work/times"
done
awk 'NR == 1 { proved = $1 } NR == 2 { printf "time of the proved program over plain Rust: %.2f\n", proved / $1 }' "$work/times"
