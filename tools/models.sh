#!/usr/bin/env bash
# Tries the built program on real models that others wrote, which are no part of the repository: each is solved to its known optimum, its
# proof is saved and checked, and no change of a byte of the tree file proves another value; each is shown, and glpsol must find that
# optimum of the shown text; each refused one must be refused with its line. Skipped where glpsol or the folder is missing.
#     tools/models.sh FOLDER
# With BYTES=N in the environment N bytes of each tree file are changed, one at a time (100 without it).
top=$(cd "$(dirname "${BASH_SOURCE[0]}")/.." && pwd) || exit 1
folder=$1
if ! command -v glpsol > /dev/null || [ ! -d "$folder" ]; then
  echo "skipped: glpsol or the folder of models is missing"
  exit 0
fi
work=$(mktemp -d) || exit 1
trap 'rm -rf "$work"' EXIT
failed=0

# Changes bytes of the tree file of $name, spread over all of it, one at a time: none may be judged as proved with another value.
change_bytes() {
  local length wrong=0 same=0 not_proved=0 refused=0 step place old new answer
  length=$(wc -c < "$work/tree")
  step=$(((length + ${BYTES:-100} - 1) / ${BYTES:-100}))
  for ((place = 0; place < length; place += step)); do
    cp "$work/tree" "$work/changed"
    old=$(od -An -tu1 -j "$place" -N 1 "$work/tree")
    new=$(((old + 1 + place % 255) % 256))
    # shellcheck disable=SC2059
    printf "\\x$(printf %02x "$new")" | dd of="$work/changed" bs=1 seek="$place" conv=notrunc status=none
    # shellcheck disable=SC2086
    answer=$("$top/ipsens" check "$folder/$name.mps" "$work/changed" $options)
    case $answer in
      "$proved") same=$((same + 1)) ;;
      "not proved"*) not_proved=$((not_proved + 1)) ;;
      "refused tree"*) refused=$((refused + 1)) ;;
      *)
        wrong=$((wrong + 1))
        echo "wrong: $name, byte $place as $new: $answer"
        ;;
    esac
  done
  echo "changed: $name, $refused refused, $not_proved not proved, $same as before"
  return $wrong
}

while read -r name wanted options; do
  [ -f "$folder/$name.mps" ] || continue
  # shellcheck disable=SC2086
  "$top/ipsens" show "$folder/$name.mps" $options > "$work/shown.mps"
  glpsol --freemps "$work/shown.mps" --tmlim 120 -o "$work/answer" > "$work/log" 2>&1
  if grep -q 'HAS NO .*INTEGER FEASIBLE\|HAS NO .*PRIMAL FEASIBLE\|INTEGER EMPTY\|INFEASIBLE' "$work/log"; then
    found=empty
  else
    found=$(awk '/^Objective:/ { print $4; exit }' "$work/answer")
  fi
  if awk -v a="$found" -v b="$wanted" 'BEGIN { exit !(a == b || (a + 0 == b + 0 && a != "empty" && b != "empty" && a != "")) }'; then
    echo "right: $name $wanted"
  else
    echo "wrong: $name $wanted, not $found"
    failed=1
  fi
  case $wanted in
    empty) line=empty ;;
    *) line="optimum $wanted" ;;
  esac
  # shellcheck disable=SC2086
  solved=$("$top/ipsens" solve "$folder/$name.mps" $options --tree "$work/tree" | head -n 1)
  if [ "$solved" = "$line" ]; then
    echo "solved: $name $line"
  else
    echo "wrong: $name $line, not $solved"
    failed=1
  fi
  # shellcheck disable=SC2086
  proved=$("$top/ipsens" check "$folder/$name.mps" "$work/tree" $options)
  if [ "$proved" = "proved ${line#optimum }" ]; then
    echo "proved: $name, by $(wc -c < "$work/tree") bytes"
  else
    echo "wrong: $name $line, but the saved tree gives $proved"
    failed=1
  fi
  change_bytes || failed=1
done << 'TABLE'
glpk_sample_cnf 0
opb_unsat empty
glpk_todd_6 -1763
glpk_todd_10 -89861
glpk_queens_4 -4
glpk_bpp 3
p0033 3089
glpk_color 4
glpk_gap 261
glpk_mfasp_int 3
glpk_zebra 0
glpk_sat 1
coin_tp3 155
coin_pack1 2 --box 1
ppl_ex1 -3 --box 10
glpk_todd_15 -4190215
glpk_transp_int 153.675 --box 1000
glpk_shiftcov 73 --box 100
TABLE
while read -r name wanted; do
  [ -f "$folder/refused/$name.mps" ] || continue
  found=$("$top/ipsens" show "$folder/refused/$name.mps")
  if [ "$found" = "$wanted" ]; then
    echo "right: $name $wanted"
  else
    echo "wrong: $name $wanted, not $found"
    failed=1
  fi
done << 'TABLE'
coin_exmip1 refused model M14 column COL01
lps_sos refused model M3 line 20
lps_faq refused model M15 column x1 upper
glpk_alloy refused model M4 line 14
cgl_capPlan1 refused model M20 line 731
TABLE
exit $failed
