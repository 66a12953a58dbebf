#!/usr/bin/env bash
# Solves the real models of a folder, which are no part of the repository, with the built program, and prints for each the answer, the
# nodes and the processor time; beside it the same search in plain Rust (tools/bench/solving.rs), which has to come to the same nodes, with
# its processor time, the dual steps of its proposals, how many proposals gave up or failed their check, and how many nodes the defined
# simplex decided; and, where glpsol is there, the processor time of its own branch and bound without cuts and without a presolver, in
# floating point. With words of tools/bench/solving.rs, a last column has the nodes and the processor time of the plain search with them.
#     tools/bench/solving.sh FOLDER [WORD..]
top=$(cd "$(dirname "${BASH_SOURCE[0]}")/../.." && pwd) || exit 1
folder=$1
shift
if [ ! -d "$folder" ]; then
  echo "skipped: the folder of models is missing"
  exit 0
fi
work=$(mktemp -d) || exit 1
trap 'rm -rf "$work"' EXIT
TIMEFORMAT='%U'
rustc --edition 2021 -O -o "$work/plain" "$top/tools/bench/solving.rs" || exit 1
count() { # the number of a line of a file
  awk -v word="$2" '$1 == word { print $2 }' "$1"
}
failed=0
printf '%-16s %-18s %8s %8s %8s %8s %8s %8s %8s %8s %s\n' model answer nodes seconds plain steps gave_up rejected exact glpsol "$*"
while read -r name options; do
  [ -f "$folder/$name.mps" ] || continue
  # shellcheck disable=SC2086
  seconds=$( { time timeout 120 "$top/ipsens" solve "$folder/$name.mps" $options > "$work/answer"; } 2>&1)
  # shellcheck disable=SC2086
  "$top/ipsens" show "$folder/$name.mps" $options > "$work/shown.mps"
  plain=$( { time timeout 120 "$work/plain" < "$work/shown.mps" > "$work/plain_answer"; } 2>&1)
  beside=-
  if command -v glpsol > /dev/null; then
    beside=$( { time timeout 120 glpsol --freemps "$work/shown.mps" -o "$work/glpsol_answer" > /dev/null; } 2>&1)
  fi
  other=
  if [ $# -gt 0 ]; then
    other=$( { time timeout 120 "$work/plain" "$@" < "$work/shown.mps" > "$work/other"; } 2>&1)
    other="$(count "$work/other" nodes) $other"
  fi
  nodes=$(count "$work/answer" nodes)
  if [ "$nodes" != "$(count "$work/plain_answer" nodes)" ]; then
    echo "wrong: $name, the plain search has $(count "$work/plain_answer" nodes) nodes"
    failed=1
  fi
  printf '%-16s %-18s %8s %8s %8s %8s %8s %8s %8s %8s %s\n' "$name" "$(head -n 1 "$work/answer")" "$nodes" "$seconds" "$plain" \
    "$(count "$work/plain_answer" dual_steps)" "$(count "$work/plain_answer" gave_up)" "$(count "$work/plain_answer" rejected)" \
    "$(count "$work/plain_answer" exact)" "$beside" "$other"
done << 'TABLE'
glpk_sample_cnf
opb_unsat
glpk_todd_6
glpk_todd_10
glpk_queens_4
glpk_bpp
p0033
glpk_color
glpk_gap
glpk_mfasp_int
glpk_zebra
glpk_sat
coin_tp3
coin_pack1 --box 1
ppl_ex1 --box 10
glpk_todd_15
glpk_transp_int --box 1000
glpk_shiftcov --box 100
TABLE
exit $failed
