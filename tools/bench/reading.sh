#!/usr/bin/env bash
# Times the built program on a made model of 4,000 columns, 1,000 rows and 190,000 entries, and on a file of 16 MiB: `show` reads the
# model, checks it and prints its canonical text.
#     tools/bench/reading.sh
top=$(cd "$(dirname "${BASH_SOURCE[0]}")/../.." && pwd) || exit 1
work=$(mktemp -d) || exit 1
trap 'rm -rf "$work"' EXIT
model() { # the front of each name
  awk -v front="$1" 'BEGIN {
    srand(7)
    print "NAME made\nROWS\n N cost"
    for (i = 0; i < 1000; i++) print " L " front "row" i
    print "COLUMNS\n M \x27MARKER\x27 \x27INTORG\x27"
    for (j = 0; j < 4000; j++) {
      print " " front "column" j " cost " int(rand() * 199) - 99
      n = 47 + j % 2
      first = int(rand() * 1000)
      for (k = 0; k < n; k++) print " " front "column" j " " front "row" (first + 21 * k) % 1000 " " 1 + int(rand() * 999)
    }
    print " M \x27MARKER\x27 \x27INTEND\x27\nRHS"
    for (i = 0; i < 1000; i++) print " RHS " front "row" i " " 1000 + int(rand() * 99000)
    print "BOUNDS"
    for (j = 0; j < 4000; j++) print " UP BND " front "column" j " 10"
    print "ENDATA"
  }'
}
model "" > "$work/large.mps"
model "ofaplanwithnameslonger" > "$work/long.mps"
room=$((16777216 - $(stat -c %s "$work/long.mps")))
{ head -c "$room" /dev/zero | tr '\0' '*' | fold -w 79 | head -c $((room - 1)); echo; cat "$work/long.mps"; } | head -c 16777216 > "$work/sixteen.mps"
for name in large sixteen; do
  echo "$name.mps: $(stat -c %s "$work/$name.mps") bytes"
  for _ in 1 2 3; do
    /usr/bin/time -f '  %e s, %M KB' "$top/crates/ipsens/out/ipsens" show "$work/$name.mps" > "$work/shown"
  done
  head -c 40 "$work/shown" | head -n 1
done
