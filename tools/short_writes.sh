#!/usr/bin/env bash
# Tries the built program where standard output takes only a part of a write and then fails: a file whose size is limited, which takes
# the first bytes of a write, a full device, and a pipe that is closed. Each run must end with status 7 and its line on standard error,
# and what was taken must be a prefix of the right text. It proves nothing, and takes a second.
#     tools/short_writes.sh
top=$(cd "$(dirname "${BASH_SOURCE[0]}")/.." && pwd) || exit 1
program=${PROGRAM:-$top/crates/ipsens/out/ipsens}
model=$top/crates/ipsens_runs/data/long.mps
if [ ! -x "$program" ]; then
  echo "skipped: the program is not built"
  exit 0
fi
work=$(mktemp -d) || exit 1
trap 'rm -rf "$work"' EXIT
"$program" show "$model" > "$work/whole" || exit 1
failed=0
judge() { # a name, the status and the file that was written
  if [ "$2" = 7 ] && [ "$(cat "$work/errors")" = "write fault" ] && cmp -s -n "$(stat -c %s "$3")" "$3" "$work/whole"; then
    echo "right: $1"
  else
    echo "wrong: $1: status $2"
    failed=1
  fi
}
for blocks in 1 8 33 64; do
  (trap '' XFSZ; ulimit -f "$blocks"; exec "$program" show "$model") > "$work/part" 2> "$work/errors"
  judge "a file of at most $blocks KiB" $? "$work/part"
done
"$program" show "$model" > /dev/full 2> "$work/errors"
judge "a full device" $? /dev/null
(trap '' PIPE; "$program" show "$model" 2> "$work/errors"; echo $? > "$work/status") | head -c 1 > "$work/part"
judge "a pipe that is closed" "$(cat "$work/status")" "$work/part"
exit $failed
