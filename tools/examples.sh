#!/usr/bin/env bash
# Runs the built program on each example and compares what it prints with its output.txt, what it answers from the saved proof to its
# questions.txt with its answers.txt, and the sweep of its sweep.txt with its sweep_output.txt, whose saved proof must be proved; then, where
# a folder of further models is given, prints the first line of the answer to each of its plain and small ones.
#     tools/examples.sh [FOLDER]
top=$(cd "$(dirname "${BASH_SOURCE[0]}")/.." && pwd) || exit 1
failed=0
tree=$(mktemp) || exit 1
proof=$(mktemp) || exit 1
trap 'rm -f "$tree" "$proof"' EXIT
for folder in "$top"/examples/*/; do
  if "$top/ipsens" solve "$folder/model.mps" --tree "$tree" | diff - "$folder/output.txt" \
    && "$top/ipsens" ask "$folder/model.mps" "$tree" "$folder/questions.txt" | diff - "$folder/answers.txt" \
    && "$top/ipsens" sweep "$folder/model.mps" "$folder/sweep.txt" --proof "$proof" | diff - "$folder/sweep_output.txt" \
    && [ "$("$top/ipsens" recheck "$folder/model.mps" "$folder/sweep.txt" "$proof")" = proved ]; then
    echo "right: $(basename "$folder")"
  else
    echo "wrong: $(basename "$folder")"
    failed=1
  fi
done
if [ -n "$1" ] && [ -d "$1" ]; then
  for name in glpk_sample_cnf opb_unsat glpk_todd_6 glpk_todd_10 coin_tp3; do
    [ -f "$1/$name.mps" ] && echo "$name: $("$top/ipsens" solve "$1/$name.mps" | head -n 1)"
  done
fi
exit $failed
