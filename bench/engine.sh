#!/usr/bin/env bash
# Compares the engine with the plain program over the same N lines, for the sums over windows of 10: processor time and
# memory of each, by turns, three times. Without a second word the lines come out of order (gen.sh); with `ordered` they
# come in order of time, with a watermark at every eighth.
#
#   bench/engine.sh 1000000
#   bench/engine.sh 1000000 ordered
set -eu
cd "$(dirname "$0")/.."
program=${STREAMBOX:-./streambox}
lines=$(mktemp) plan=$(mktemp) rows=$(mktemp) other=$(mktemp)
trap 'rm -f "$lines" "$plan" "$rows" "$other"' EXIT
if [ "${2:-}" = ordered ]; then
  awk -v n="$1" 'BEGIN { for (i = 1; i <= n; i++) print i % 8 ? "r,a," i "," i % 100 "," i % 77 : "w,a," i }' > "$lines"
else
  bench/gen.sh "$1" > "$lines"
fi
printf '[[transform]]\nname = "sums"\nkind = "sum"\nfrom = "a"\nsize = 10\n' > "$plan"
"$program" sum 10 < /dev/null
for _ in 1 2 3; do
  command time -f 'engine: %U s + %S s, %M kB' "$program" sum 10 < "$lines" > "$rows"
  command time -f 'plain:  %U s + %S s, %M kB' "$program" slow "$plan" < "$lines" > "$other"
done
cmp "$rows" "$other" && echo "both print the same $(wc -l < "$rows") rows"
