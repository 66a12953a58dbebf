#!/usr/bin/env bash
# The check of a tree file of 99,999 nodes beside the same sums in plain Rust, by processor time; the check of a file of 200 MiB with
# little memory; and what it takes to save a proof of 97,239 nodes.
set -e
cd "$(dirname "$0")/../.."
work=$(mktemp -d)
trap 'rm -r "$work"' EXIT
rustc --edition 2024 -O -o "$work/plain" tools/bench/check.rs
program=crates/ipsens/out/ipsens
"$work/plain" make "$work"
"$work/plain" long "$work" 200
TIMEFORMAT=%U

# Appends the seconds that a command takes to a list of them; what it prints goes into a file.
takes() {
    { time "${@:3}" >"$work/$2" || true; } 2>>"$work/$1"
}

# The least of a list, in milliseconds.
least() {
    sort -n "$work/$1" | awk 'NR == 1 { print int($1 * 1000) }'
}

# by turns, so that other work on the machine meets all of them
for _ in 1 2 3 4 5 6 7 8 9 10 11 12 13 14 15; do
    takes check.times proved "$program" check "$work/model.mps" "$work/tree"
    takes plain.times plain_text "$work/plain" judge "$work"
    takes show.times shown "$program" show "$work/model.mps"
    takes solve.times solved "$program" solve "$work/odd.mps"
    takes save.times saved "$program" solve "$work/odd.mps" --tree "$work/odd"
done
diff "$work/proved" "$work/plain_text"
echo "check: $(least check.times) ms; plain Rust: $(least plain.times) ms; reading and showing the model: $(least show.times) ms"
awk -v a="$(least check.times)" -v b="$(least plain.times)" 'BEGIN { printf "check over plain Rust: %.2f\n", a / b }'
diff "$work/solved" "$work/saved"
echo "solve: $(least solve.times) ms; with --tree: $(least save.times) ms"
"$program" check "$work/odd.mps" "$work/odd"
# the least address space, in MiB, with which the model is shown and the file of 200 MiB is judged
for command in "show $work/model.mps" "check $work/model.mps $work/long"; do
    mebibytes=1
    # shellcheck disable=SC2086
    until (ulimit -v $((mebibytes * 1024)) && "$program" $command >"$work/judged" 2>&1) || [ $? -eq 1 ]; do
        mebibytes=$((mebibytes + 1))
    done
    echo "${command%% *}: $mebibytes MiB of address space"
done
cat "$work/judged"
